"""Logins by a client that isn't ours: `curl --digest` against `elydom replay`.

    python3 examples/live/digest.py crates/elydom/out/elydom

A small HTTP server on 127.0.0.1 hands the headers of Digest with MD5 and with SHA-256 (RFC 7616) on to one running
program, and `curl` (Debian package `curl`) asks for a page. A request is in where its logins end as they should and the
client gets the page, which has the name that was established; it is out where they end as they should and the client is
refused; and all else differs.
"""

import collections
import hashlib
import http.server
import secrets
import shutil
import signal
import subprocess
import sys
import threading
from urllib.parse import quote, unquote

USER, OLD, NEW = 'Zoë "b", c\\d', "old 100% pässword: x", 'new, "password"'
DOOR, PAGE, REALM = "/", "/a%20page?of=1,2", "ManagementRealm"  # who is in at the door is sent on to the page
MECHANISMS = (  # the word for `open`, the kind of a stored hash, the name of the hash, its function
    ("DIGEST", "digest-md5", "MD5", hashlib.md5),
    ("DIGEST-SHA-256", "digest-sha-256", "SHA-256", hashlib.sha256),
)
OPEN, IN = "open ok", "succeed established"  # the last step of a login that only gives a challenge, and of one that is in
OTHER = ("2 open 2 DIGEST", "2 close 2")  # issues one more nonce, the program's own; the last 4,096 are kept
EDIT = (f"1 set-cred main {quote(USER)} 1 clear {quote(NEW)}",)
END = (f"1 remove main {quote(USER)}",)
CASES = (  # title, the client's password (none: its last header again), lines that run behind the challenge, how the logins end
    ("the right password", OLD, (), (OPEN, IN, IN)),
    ("its last header again", None, (), ("check1 replayed 2",)),
    ("a wrong password", "wrong", (), (OPEN, "check2 response")),
    ("a nonce that is forgotten behind the challenge", OLD, OTHER * 4095, (OPEN, "check1 stale", IN, IN)),
    ("a nonce that is forgotten between door and page", OLD, OTHER * 4094, (OPEN, IN, "check1 stale", IN)),
    ("the old password, edited behind the challenge", OLD, EDIT, (OPEN, "check2 response")),
    ("the new password after the edit", NEW, (), (OPEN, IN, IN)),
    ("an identity that is removed behind the challenge", NEW, END, (OPEN, "name1 unknown")),
)


class Core:
    """A running `elydom replay`, asked line by line."""

    def __init__(self, program):
        """Starts the program with the default configuration."""
        self.child = subprocess.Popen([program, "replay"], stdin=subprocess.PIPE, stdout=subprocess.PIPE)
        self.child.stdin.write(b"{}\n")

    def ask(self, wanted, line):
        """Sends a line and gives its last step with the outcome; one that doesn't begin with the wanted words is raised."""
        if "\n" in line:  # the rest would be a line of its own for the program
            raise ValueError("a header with a line end")
        self.child.stdin.write(line.encode("latin-1") + b"\n")
        self.child.stdin.flush()
        while printed := self.child.stdout.readline().decode():
            step = printed.rstrip("\n").split(" ", 3)[3]
            if step.startswith(wanted):
                return step
            if not step.startswith(("name1 pinned ", "name2 named ", "check1 ok")):
                raise ValueError(step)
        raise EOFError("the program ended")

    def do(self, lines):
        """Sends lines that are to be accepted."""
        for line in lines:
            self.ask(line.split(" ")[1] + " ok", line)


class Page(http.server.BaseHTTPRequestHandler):
    """The door and the page behind it, which both say who is in. The server has the program, the mechanism and the case."""

    protocol_version = "HTTP/1.1"
    timeout = 20  # seconds that a client may be silent

    def login(self, header):
        """Leads one login through the program, in its context 1, and gives its challenge and the step that ended it."""
        core = self.server.core
        opened = step = core.ask(OPEN, f"0 open 1 {self.server.mechanism} {secrets.token_hex(16)}")
        try:
            if header is not None:
                core.ask("check2 proved", f"0 digest 1 {self.command} {self.path} {header}")
                core.ask("authorize authorized", "0 authorize 1")
                step = core.ask(IN, "0 succeed 1")
        except ValueError as fault:
            step = str(fault)
        finally:
            core.do(["0 close 1"])
        return opened.split(" ", 3)[3], step

    def do_GET(self):
        """Answers a request by a login of its own, whose challenge goes to a client that isn't in."""
        header = self.headers["Authorization"]
        challenge, step = self.login(header)
        self.server.steps.append(step)
        if header is None:
            self.server.core.do(self.server.between)
        else:
            self.server.header = header
        page = unquote(step.split(" ")[4]).encode() if step.startswith(IN) else b""
        self.send_response(401 if not page else 302 if self.path == DOOR else 200)
        if page:
            self.send_header("Location", PAGE)
        else:
            self.send_header("WWW-Authenticate", challenge + ", stale=true" * (step == "check1 stale"))
        self.send_header("Content-Length", str(len(page)))
        self.end_headers()
        self.wfile.write(page)

    def log_message(self, *_):
        """Says nothing of single requests."""


def attempt(server, password, between, expected):
    """Lets the client ask, and gives `in`, `out` or what differs from both."""
    server.steps, server.between = [], between
    command = ["curl", "--disable", "--silent", "--noproxy", "*", "--max-time", "20", "--location"]
    command += ["--write-out", " %{http_code}"]
    if password is None:
        command += ["--header", b"Authorization: " + server.header.encode("latin-1")]
    else:
        command += ["--digest", "--user", f"{USER}:{password}".encode()]
    command.append(f"http://127.0.0.1:{server.server_port}{PAGE if password is None else DOOR}")
    client = subprocess.run(command, stdin=subprocess.DEVNULL, stdout=subprocess.PIPE)
    got, result = client.stdout.decode(), {f"{USER} 200": "in", " 401": "out"}
    if got in result and len(server.steps) == len(expected) and all(map(str.startswith, server.steps, expected)):
        return result[got]
    return f"program: {', '.join(server.steps)}; client: status {client.returncode}, {got!r}"


def main():
    """Runs all cases with both hashes and counts them."""
    if len(sys.argv) != 2:
        sys.exit("usage: python3 digest.py PROGRAM")
    if not shutil.which("curl"):
        sys.exit("the program curl isn't installed (Debian package curl)")
    signal.alarm(120)  # ends a run in which somebody doesn't answer
    version = subprocess.run(["curl", "--version"], capture_output=True, text=True).stdout.split()[1]
    counts, differ, left_out = collections.Counter(), 0, ""
    with http.server.HTTPServer(("127.0.0.1", 0), Page) as server:
        threading.Thread(target=server.serve_forever, daemon=True).start()
        server.core = Core(sys.argv[1])
        for server.mechanism, kind, title, function in MECHANISMS:
            if title == "SHA-256" and [int(part) for part in version.split(".")[:2]] < [7, 57]:
                left_out = f"; SHA-256 not offered, as curl {version} doesn't know it"
                continue
            key = function(f"{USER}:{REALM}:{OLD}".encode()).hexdigest()
            server.core.do([f"0 add main {quote(USER)}", f"0 set-cred main {quote(USER)} 1 {kind} {key}:{REALM}"])
            for case, password, between, expected in CASES:
                result = attempt(server, password, between, expected)
                print(f"{title}, {case}: {result}", flush=True)
                counts[result] += 1
                differ += result not in ("in", "out")
        server.shutdown()
    print(f"{counts.total()} requests: {counts['in']} in, {counts['out']} out, {differ} differ{left_out}")
    sys.exit(differ != 0)


if __name__ == "__main__":
    main()
