#!/usr/bin/env python3
"""measure.py ROUNDS ELYDOM GSASL [CORE]: each round runs, in turn, our program over each script, from a pipe and into a pipe, and GNU
SASL's server for as many logins. Prints microseconds a login by the wall and of processor time (with and without the kernel's), best and median; what our program takes for
a script without logins is taken off."""
import os
import statistics
import subprocess
import sys
import time

rounds, ours, theirs = int(sys.argv[1]), sys.argv[2], sys.argv[3]
pin = ["taskset", "-c", sys.argv[4]] if len(sys.argv) > 4 else []
CASES = [(f"{kind}-{h}", f"{kind}-{h}" + tail, m, count, ways)
         for h, m in (("sha1", "SCRAM-SHA-1"), ("sha256", "SCRAM-SHA-256"))
         for kind, tail, count, ways in (("clear", "", 200, ("password",)), ("stored", "-20000", 20000, ("stored", "salted")))]
times = {}


def note(name, wall, cpu, user):
    for clock, value in (("wall", wall), ("cpu", cpu), ("user", user)):
        times.setdefault((name, clock), []).append(value)


def piped(name, script, count):
    """Runs our program; the wall's time is from its start to its end."""
    feed = subprocess.Popen(["cat", script], stdout=subprocess.PIPE)
    begin = time.perf_counter()
    child = subprocess.Popen([*pin, ours, "replay"], stdin=feed.stdout, stdout=subprocess.PIPE)
    last = subprocess.Popen(["sh", "-c", "cat >/dev/null"], stdin=child.stdout)
    feed.stdout.close(), child.stdout.close()
    _, status, usage = os.wait4(child.pid, 0)
    wall = time.perf_counter() - begin
    child.returncode = 0
    assert [status, feed.wait(), last.wait()] == [0, 0, 0]
    note(name, wall * 1e6 / count, (usage.ru_utime + usage.ru_stime) * 1e6 / count, usage.ru_utime * 1e6 / count)


def served(name, mechanism, count, way):
    said = subprocess.run([*pin, theirs, mechanism, str(count), way], capture_output=True, text=True, check=True).stdout.split()
    note(name, float(said[0]), float(said[1]), float(said[1]))


loads = [os.getloadavg()[0]]
for _ in range(rounds):
    for name, script, mechanism, count, ways in CASES:
        piped(name, script, count)
        piped(f"{name} start", f"stored-{name.split('-')[1]}-0", count)
        for way in ways:
            served(f"{name} {way}", mechanism, count, way)
    loads.append(os.getloadavg()[0])

print(f"{rounds} rounds, load {min(loads):.1f} to {max(loads):.1f} on {os.cpu_count()} processors, pinned: {' '.join(pin) or 'no'}")
for name, script, mechanism, count, ways in CASES:
    for way in ways:
        for clock in ("wall", "cpu", "user"):
            start = min(times[f"{name} start", clock])  # a script without logins: the program's start and end
            a, b = [x - start for x in times[name, clock]], times[f"{name} {way}", clock]
            each = statistics.median(x / y for x, y in zip(a, b))
            print(f"{name:14} {way:8} {clock:4} best {min(a):9.2f} / {min(b):9.2f} = {min(a)/min(b):.3f}   median "
                  f"{statistics.median(a):9.2f} / {statistics.median(b):9.2f} = {statistics.median(a)/statistics.median(b):.3f}"
                  f"   median of the rounds' ratios {each:.3f}")
