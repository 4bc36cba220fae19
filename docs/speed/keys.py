"""Measures realms that keep keys: keys.py PROGRAM GSASL. Times are of the processor, the best of some rounds in turn."""
import re
import resource
import subprocess
import sys

PROGRAM, GSASL = sys.argv[1:3]
ROUNDS = 7


def spent(*words):
    before = resource.getrusage(resource.RUSAGE_CHILDREN)
    subprocess.run([PROGRAM, *map(str, words)], check=True)
    after = resource.getrusage(resource.RUSAGE_CHILDREN)
    return after.ru_utime - before.ru_utime + after.ru_stime - before.ru_stime


def each(mode, count, times, rounds=ROUNDS):
    """What one of so many calls takes, in microseconds."""
    with_them = min(spent(mode, count, times) for _ in range(rounds))
    return (with_them - min(spent(mode, count, 0) for _ in range(rounds))) / times * 1e6


def gsasl(mechanism, logins):
    said = subprocess.run([GSASL, mechanism, str(logins), "stored"], capture_output=True, text=True, check=True).stdout
    return float(said.split()[1])


def heap(mode, count, times):
    """The bytes that a run asks of the heap in all."""
    said = subprocess.run(["valgrind", PROGRAM, mode, str(count), str(times)], capture_output=True, text=True).stderr
    return int(re.search(r"([\d,]+) bytes allocated", said).group(1).replace(",", ""))


for mode, mechanism in (("sha1", "SCRAM-SHA-1"), ("sha256", "SCRAM-SHA-256")):
    ours, theirs = [], []
    for _ in range(ROUNDS):
        ours.append(each(mode, 0, 20000, 1))
        theirs.append(gsasl(mechanism, 20000))
    print(mode, "login", min(ours), "GNU SASL", min(theirs), "ratio", min(ours) / min(theirs), "medians", sorted(ours)[ROUNDS // 2] / sorted(theirs)[ROUNDS // 2])
for count, times in ((16384, 16384), (65536, 60000)):
    kept, bare = each("edit", count, times, 5), each("bare", count, times, 5)
    print("edit", count, kept, "no key kept", bare, "ratio", kept / bare)
for mode in ("find", "offer"):
    many, few = each(mode, 65536, 500000, 3), each(mode, 1024, 500000, 3)
    print(mode, many, few, "ratio", many / few)
for count in (0, 32):
    none, some = heap("pin", count, 0), heap("pin", count, 1000)
    print("pin", count, "attributes", (some - none) / 1000, "bytes a naming")
