#!/usr/bin/env python3
"""Times Hi at 4,096 turns beside hashlib.pbkdf2_hmac: compare.py PROGRAM [ROUNDS [REPEATS]].
Each round runs the program, then Python, for each hash, REPEATS values each. Printed are the best round of each with their
ratio, and the median of the rounds' own ratios. The program's start and end are taken away by runs of one repeat. The last
values are compared. Under OPENSSL_ia32cap=:~0x20000000 OpenSSL uses no SHA instructions."""
import hashlib, os, ssl, statistics, subprocess, sys, time

program = sys.argv[1]
rounds = int(sys.argv[2]) if len(sys.argv) > 2 else 100
repeats = int(sys.argv[3]) if len(sys.argv) > 3 else 15
turns = 4096


def ours(name, count):
    begin = time.perf_counter()
    words = [program, name, str(turns), str(count)]
    out = subprocess.run(words, capture_output=True, text=True, check=True).stdout.strip()
    return time.perf_counter() - begin, out


def python(name, count):
    begin = time.perf_counter()
    last = b'password'
    for _ in range(count):
        last = hashlib.pbkdf2_hmac(name, last, b'salt', turns)
    return time.perf_counter() - begin, last.hex()


with open('/proc/cpuinfo') as text:
    lines = text.read().split('\n')
model = next(l.split(':', 1)[1].strip() for l in lines if l.startswith('model name'))
sha_ni = 'sha_ni' in next(l for l in lines if l.startswith('flags')).split()
print(f'{model}, sha_ni {"yes" if sha_ni else "no"}, load {os.getloadavg()[0]:.2f} on {os.cpu_count()} processors')
print(f'Python {sys.version.split()[0]}, {ssl.OPENSSL_VERSION}, OPENSSL_ia32cap={os.environ.get("OPENSSL_ia32cap", "")}')
for name in ('sha1', 'sha256'):
    idle = min(ours(name, 1)[0] for _ in range(10))
    mine, theirs = [], []
    for _ in range(rounds):
        t, a = ours(name, repeats)
        mine.append((t - idle) / (repeats - 1))
        t, b = python(name, repeats)
        theirs.append(t / repeats)
        assert a == b, (a, b)
    o, p = min(mine), min(theirs)
    middle = statistics.median(x / y for x, y in zip(mine, theirs))
    print(f'{name:7} ours {o*1e3:.3f} ms ({o/turns*1e9:.0f} ns a turn)  Python {p*1e3:.3f} ms ({p/turns*1e9:.0f} ns a turn)'
          f'  ratio {o/p:.2f}, median of the rounds {middle:.2f}')
