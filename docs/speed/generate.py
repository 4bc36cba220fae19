"""Writes the scripts that are measured, into the folder it is run in."""
import base64

NAMES = 1000


def names(count=NAMES):
    yield "{}"
    for i in range(count):
        yield f"0 add main user{i}"
        yield f"0 set-cred main user{i} 1 clear pencil"


def plain(login):
    return base64.b64encode(b"\0user%d\0pencil" % (login % NAMES)).decode()


def logins(count):
    yield from names()
    for c in range(count):
        yield from (f"0 open {c} PLAIN", f"0 plain {c} {plain(c)}", f"0 authorize {c}", f"0 succeed {c}", f"0 close {c}")


def live(count, asked):
    """With `count` live logins, `asked` lines of allows, for the last hundred of them in turn."""
    yield from names()
    for c in range(count):
        yield from (f"0 open {c} PLAIN", f"0 plain {c} {plain(c)}", f"0 authorize {c}", f"0 succeed {c}")
    for k in range(asked):
        yield f"0 allows {count - 1 - k % min(100, count)} login"


def edits(count):
    """Rounds of 1,000 edits over 200 names: each round adds them, sets a credential, an attribute and a credential, and removes them."""
    yield "{}"
    for j in range(count):
        u, turn, rounds = j % 200, j // 200 % 5, j // 1000
        yield (
            f"0 add main user{u}",
            f"0 set-cred main user{u} 1 clear pencil{rounds}",
            f"0 set-attr main user{u} groups staff g{rounds}",
            f"0 set-cred main user{u} 1 clear newer{rounds}",
            f"0 remove main user{u}",
        )[turn]


def write(name, lines):
    with open(name, "w") as it:
        it.write("\n".join(lines) + "\n")


write("names", names())
write("logins", logins(20000))
for count in (1, 4000):
    write(f"live-{count}", live(count, 0))
    write(f"allows-{count}", live(count, 100000))
for count in (1000, 10000, 100000):
    write(f"edits-{count}", edits(count))
