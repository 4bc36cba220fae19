"""Logins by a client that isn't ours: GNU SASL's `gsasl` against `elydom replay`.

    python3 examples/live/scram.py crates/elydom/out/elydom

A small SMTP server on 127.0.0.1 hands the messages of SCRAM-SHA-1 (RFC 5802) and SCRAM-SHA-256 (RFC 7677) on to one
running program, and `gsasl` (Debian package `gsasl`) logs in to it. A login is in where the program establishes it and the
client trusts the server's verifier, out where the program refuses the proof and the client fails, and all else differs.
"""

import base64
import collections
import os
import secrets
import shutil
import signal
import socket
import subprocess
import sys
from urllib.parse import quote, unquote

LONGEST = 16384  # bytes of a client's line
USER, OLD, NEW = "Zoë, b=c", "old 100% pässword", "new, password="
CASES = (  # title, the client's password, whether another actor stores NEW between the client's messages, what is expected
    ("the right password", OLD, False, "in"),
    ("a wrong password", "wrong", False, "out"),
    ("the old password, edited between the messages", OLD, True, "in"),
    ("the old password after the edit", OLD, False, "out"),
    ("the new password after the edit", NEW, False, "in"),
)


class Core:
    """A running `elydom replay`, asked line by line."""

    def __init__(self, program):
        """Starts the program with the default configuration."""
        self.child = subprocess.Popen([program, "replay"], stdin=subprocess.PIPE, stdout=subprocess.PIPE)
        self.child.stdin.write(b"{}\n")

    def ask(self, wanted, line, message=b""):
        """Sends a line and gives the outcome of its last step; one that doesn't begin with the wanted word is raised."""
        self.child.stdin.write(line.encode() + message + b"\n")
        self.child.stdin.flush()
        while step := self.child.stdout.readline().decode():
            name, outcome = step.rstrip("\n").split(" ", 4)[3:]
            first = outcome.split(" ")[0]
            if (name, first) in (("name1", "pinned"), ("check1", "ok")):
                continue
            if first != wanted:
                raise ValueError(outcome)
            return outcome
        raise EOFError("the program ended")

    def set_password(self, actor, password):
        """Stores the user's password."""
        self.ask("ok", f"{actor} set-cred main {quote(USER)} 1 clear {quote(password)}")


def say(wire, text):
    """Sends a reply to the client."""
    wire.write(text.encode() + b"\r\n")
    wire.flush()


def exchange(wire, text):
    """Sends a message of the mechanism and gives the client's answer."""
    say(wire, "334 " + base64.b64encode(text.encode()).decode())
    line = wire.readline(LONGEST)
    if not line.endswith(b"\n"):
        raise ConnectionError("the client hung up")
    answer = base64.b64decode(line.rstrip(b"\r\n"), validate=True)
    if b"\n" in answer:  # the rest would be a line of its own for the program
        raise ValueError("a message with a line end")
    return answer


def login(core, wire, mechanism, edited):
    """Leads one login through the program, in its context 1, and gives the last outcome."""
    core.ask("ok", f"0 open 1 {mechanism} {secrets.token_hex(16)}")
    try:
        challenge = core.ask("challenge", "0 first 1 ", exchange(wire, ""))
        if edited:
            core.set_password(1, NEW)
        verifier = core.ask("proved", "0 final 1 ", exchange(wire, challenge.split()[1]))
        core.ask("authorized", "0 authorize 1")
        exchange(wire, verifier.split()[1])
        return core.ask("established", "0 succeed 1")
    finally:
        core.ask("ok", "0 close 1")


def serve(core, connection, edited):
    """Speaks SMTP with one client and gives the last outcome of its login."""
    outcome = "no login"
    with connection, connection.makefile("rwb") as wire:
        say(wire, "220 localhost")
        while request := wire.readline(LONGEST):
            verb, _, mechanism = request.decode().strip().partition(" ")
            if verb == "EHLO":
                say(wire, "250-localhost\r\n250 AUTH SCRAM-SHA-1 SCRAM-SHA-256")
            elif verb == "AUTH":
                try:
                    outcome = login(core, wire, mechanism, edited)
                    say(wire, "235 authenticated")
                except ValueError as fault:
                    outcome = str(fault)
                    say(wire, "535 authentication failed")
                except ConnectionError as fault:
                    outcome = str(fault)
            else:
                say(wire, "221 bye")
    return outcome


def attempt(core, door, mechanism, password, edited):
    """Lets the client log in once, and gives `in`, `out` or what differs from both."""
    command = ["gsasl", "--smtp", f"--connect=127.0.0.1:{door.getsockname()[1]}", "--no-starttls", "--no-cb"]
    command += [f"--mechanism={mechanism}", f"--authentication-id={USER}", f"--password={password}"]
    client = subprocess.Popen(command, stdin=subprocess.DEVNULL, stdout=subprocess.DEVNULL, stderr=subprocess.PIPE)
    outcome = serve(core, door.accept()[0], edited)
    errors = client.communicate()[1].decode()
    trusted = client.returncode == 0 and "server trusted" in errors
    if trusted and outcome.startswith("established ") and unquote(outcome.split(" ")[3]) == USER:
        return "in"
    if client.returncode != 0 and outcome == "proof e=invalid-proof":
        return "out"
    return f"program: {outcome}; client: status {client.returncode}, {errors!r}"


def main():
    """Runs all cases with both mechanisms and counts them."""
    if len(sys.argv) != 2:
        sys.exit("usage: python3 scram.py PROGRAM")
    if not shutil.which("gsasl"):
        sys.exit("the program gsasl isn't installed (Debian package gsasl)")
    signal.alarm(60)  # ends a run in which somebody doesn't answer
    os.environ["LC_ALL"] = "C.UTF-8"  # the client reads its arguments in it
    core, counts, differ = Core(sys.argv[1]), collections.Counter(), 0
    core.ask("ok", f"0 add main {quote(USER)}")
    with socket.create_server(("127.0.0.1", 0)) as door:
        for mechanism in ("SCRAM-SHA-1", "SCRAM-SHA-256"):
            core.set_password(0, OLD)
            for title, password, edited, expected in CASES:
                result = attempt(core, door, mechanism, password, edited)
                print(f"{mechanism}, {title}: {result}", flush=True)
                counts[result] += 1
                differ += result != expected
    print(f"{counts.total()} logins: {counts['in']} in, {counts['out']} out, {differ} differ")
    sys.exit(differ != 0)


if __name__ == "__main__":
    main()
