#!/usr/bin/env python3
"""measure.py ROUNDS OLD NEW GSASL: in each round runs the two programs over `logins` and the new one over the other scripts,
each from a pipe and into a pipe, and GNU SASL's server. Prints the best of each, and the ratios of the best and of the medians."""
import os, statistics, subprocess, sys, time

rounds, old, new, gsasl = int(sys.argv[1]), *sys.argv[2:5]
times = {}


def piped(name, program, script):
    begin = time.perf_counter()
    feed = subprocess.Popen(['cat', script], stdout=subprocess.PIPE)
    ours = subprocess.Popen([program, 'replay'], stdin=feed.stdout, stdout=subprocess.PIPE)
    last = subprocess.Popen(['cat'], stdin=ours.stdout, stdout=subprocess.DEVNULL)
    feed.stdout.close(), ours.stdout.close()
    assert [it.wait() for it in (feed, ours, last)] == [0, 0, 0]
    times.setdefault(name, []).append(time.perf_counter() - begin)


for _ in range(rounds):
    piped('old', old, 'logins')
    piped('new', new, 'logins')
    piped('names', new, 'names')
    for way in ('password', 'validate'):
        said = subprocess.run([gsasl, '20000', way], capture_output=True, text=True, check=True).stdout
        times.setdefault(way, []).append(float(said) * 1e-9)
    for script in ('live-1', 'allows-1', 'live-4000', 'allows-4000'):
        piped(script, new, script)

print(f'load {os.getloadavg()[0]:.1f} on {os.cpu_count()} processors, {rounds} rounds')
for word, pick in (('best', min), ('median', statistics.median)):
    t = {name: pick(each) for name, each in times.items()}
    login = (t['new'] - t['names']) / 20000
    one, many = ((t[f'allows-{n}'] - t[f'live-{n}']) / 100000 for n in (1, 4000))
    print(f'{word}: old {102000/t["old"]:,.0f} lines a second, new {102000/t["new"]:,.0f}, ratio {t["old"]/t["new"]:.2f}')
    for way in ('password', 'validate'):
        print(f'{word}: a login {login*1e6:.2f} us, GNU SASL ({way}) {t[way]*1e6:.2f} us, ratio {login/t[way]:.2f}')
    print(f'{word}: allows with 1 live {one*1e6:.2f} us, with 4,000 {many*1e6:.2f} us, ratio {many/one:.2f}')
