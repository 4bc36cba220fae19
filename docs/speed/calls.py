"""Measures calls of the crates: calls.py PROGRAM [instructions]. Times are of the processor, the best of some runs."""
import hashlib
import re
import resource
import subprocess
import sys
import time

PROGRAM = sys.argv[1]


def spent(*words):
    before = resource.getrusage(resource.RUSAGE_CHILDREN)
    subprocess.run([PROGRAM, *map(str, words)], check=True)
    after = resource.getrusage(resource.RUSAGE_CHILDREN)
    return after.ru_utime - before.ru_utime + after.ru_stime - before.ru_stime


def instructions(*words):
    tool = ["valgrind", "--tool=callgrind", "--callgrind-out-file=/dev/null", PROGRAM, *map(str, words)]
    return int(re.search(r"Collected : (\d+)", subprocess.run(tool, capture_output=True, text=True).stderr).group(1))


def each(mode, count, times, rounds=5):
    """What one of so many calls takes."""
    if "instructions" in sys.argv:
        return (instructions(mode, count, times) - instructions(mode, count, 0)) / times
    return (min(spent(mode, count, times) for _ in range(rounds)) - min(spent(mode, count, 0) for _ in range(rounds))) / times


def formula(hash, times=100000):
    nonce, cnonce = "7ypf/xlj9XXwfDPEoM4URrv/xwf94BcCAzFZH4GiTo0v", "f2/wE4q74E6zIJEtWaHKaf5wv/H5QzzpXusqGemxURZJ"
    ha1 = hash(b"x").hexdigest()
    begin = time.process_time()
    for _ in range(times):
        ha2 = hash(b"GET:/dir/index.html").hexdigest()
        hash(f"{ha1}:{nonce}:00000001:{cnonce}:auth:{ha2}".encode()).hexdigest()
    return (time.process_time() - begin) / times


def implies(grant, wanted):
    return grant in (b"*", wanted) or (grant.endswith(b":*") and wanted.startswith(grant[:-1]))


def authorized(groups, targets, rows):
    made = set()
    for group in sorted(set(groups)):
        made.update(targets.get(group, [group]))
    roles = set(sorted(made))
    said = [any(implies(g, b"login") for g in grant) for names, all, grant in rows if all or any(n in roles for n in names)]
    return any(said)


def python(targets, times=30):
    groups = [b"group%d" % i for i in range(64)]
    mapped = {b"group%d" % i: [b"role%d" % (1000000 + i * 64 + j) for j in range(targets)] for i in range(64)}
    rows = [([b"none%d" % (i * 64 + j) for j in range(64)], i == 63, [b"login"]) for i in range(64)]
    begin = time.process_time()
    for _ in range(times):
        assert authorized(groups, mapped, rows)
    return (time.process_time() - begin) / times


few = "instructions" in sys.argv
for mode, hash in (("md5", hashlib.md5), ("sha", hashlib.sha256)):
    print(mode, each(mode, 0, 2000 if few else 300000), min(formula(hash) for _ in range(3)))
for names, times in ((1000, 130), (10000, 13), (65536, 2)):
    print("reload", names, each("reload", names, 1 + times // 16 if few else times) / names)
for targets in (8, 16, 32, 64):
    print("authorize", 64 * targets, each("authorize", targets, 4 if few else 100), min(python(targets) for _ in range(3)))
