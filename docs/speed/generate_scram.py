"""Writes the scripts that are measured, into the folder it is run in: logins by SCRAM with given nonces."""
import base64
import hashlib
import hmac

TURNS, PASSWORD, USER = 4096, b"pencil", b"user"
GIVEN_SALT = base64.b64decode("QSXCR+Q6sek8bf92AAECAw==")


def text(data):
    return base64.b64encode(data).decode()


def nonce(kind, login):
    """24 characters, as GNU SASL's nonces have."""
    return text(hashlib.sha256(b"%s %d" % (kind, login)).digest()[:18])


def logins(hash_name, mechanism, salt, count):
    salted = hashlib.pbkdf2_hmac(hash_name, PASSWORD, salt, TURNS)
    mac = lambda key, data: hmac.digest(key, data, hash_name)
    client_key = mac(salted, b"Client Key")
    stored_key = hashlib.new(hash_name, client_key).digest()
    for k in range(count):
        mine, its = nonce(b"client", k), nonce(b"server", k)
        bare, last = f"n=user,r={mine}", f"c=biws,r={mine}{its}"
        auth = f"{bare},r={mine}{its},s={text(salt)},i={TURNS},{last}".encode()
        proof = bytes(a ^ b for a, b in zip(client_key, mac(stored_key, auth)))
        yield f"0 open {k} {mechanism} {its}"
        yield f"0 first {k} n,,{bare}"
        yield f"0 final {k} {last},p={text(proof)}"
        yield from (f"0 authorize {k}", f"0 succeed {k}", f"0 close {k}")


def script(name, credential, lines):
    with open(name, "w") as out:
        out.write("\n".join(["{}", "0 add main user", f"0 set-cred main user 1 {credential}", *lines]) + "\n")


for hash_name, mechanism in (("sha1", "SCRAM-SHA-1"), ("sha256", "SCRAM-SHA-256")):
    derived = hashlib.sha256(b"\0salt\0main\0" + USER).digest()[:16]
    script(f"clear-{hash_name}", "clear pencil", logins(hash_name, mechanism, derived, 200))
    key = hashlib.pbkdf2_hmac(hash_name, PASSWORD, GIVEN_SALT, TURNS)
    kind = f"{mechanism.lower()} {TURNS}:{text(GIVEN_SALT)}:{text(key)}"
    for count in (0, 1000, 20000):
        script(f"stored-{hash_name}-{count}", kind, logins(hash_name, mechanism, GIVEN_SALT, count))
