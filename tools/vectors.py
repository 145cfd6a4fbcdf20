#!/usr/bin/env python3
"""What the programs `vectors` and `hash_chain` must print, by Python's hashlib and hmac, which are OpenSSL's.
The published digests are held to them too.

    tools/vectors.py vectors    > crates/vectors/stdout
    tools/vectors.py hash_chain > crates/hash_chain/stdout
    tools/vectors.py check      both programs as `rt run` built them, run and compared
"""
import hashlib
import hmac
import subprocess
import sys

LENGTHS = [55, 56, 63, 64, 119, 120, 363, 1000]
CHAIN = 184873

# FIPS 180-4's examples: the message, and the digest that is published with it
MESSAGES = [
    ("the empty message", b"", "e3b0c44298fc1c149afbf4c8996fb92427ae41e4649b934ca495991b7852b855"),
    ("abc", b"abc", "ba7816bf8f01cfea414140de5dae2223b00361a396177a9cb410ff61f20015ad"),
    ("448 bits", b"abcdbcdecdefdefgefghfghighijhijkijkljklmklmnlmnomnopnopq",
     "248d6a61d20638b8e5c026930c3e6039a33ce45964ff2167f6ecedd419db06c1"),
    ("896 bits", b"abcdefghbcdefghicdefghijdefghijkefghijklfghijklmghijklmnhijklmnoijklmnopjklmnopqklmnopqrlmnopqrs"
                 b"mnopqrstnopqrstu", "cf5b16a778af8380036ce59e7b0492370b249b11e8f07a51afac45037afee9d1"),
    ("a million a", b"a" * 1000000, "cdc76e5c9914fb9281a1c7e284d73e67f1809a48a497200e046d39ccc7112cd0"),
]

# RFC 4231, test cases 1 to 4: key, message, published code
SEALS = [
    (b"\x0b" * 20, b"Hi There", "b0344c61d8db38535ca8afceaf0bf12b881dc200c9833da726e9376c2e32cff7"),
    (b"Jefe", b"what do ya want for nothing?", "5bdcc146bf60754e6a042426089575c75a003f089d2739839dec58b964ec3843"),
    (b"\xaa" * 20, b"\xdd" * 50, "773ea91e36800e46854db8ebd09181a72959098b3ef8c122d9635514ced565fe"),
    (bytes(range(1, 26)), b"\xcd" * 50, "82558a389a443c0ea4cc819899f2083a85f0faa3e578f8077a2e3ff46729665b"),
]


def digest(message):
    return hashlib.sha256(message).hexdigest()


def vectors():
    lines = [("the worked text", digest(bytes.fromhex("0b0007020000000501023237")))]
    for label, message, published in MESSAGES:
        assert digest(message) == published, label
        lines.append((label, digest(message)))
    pattern = bytes(i % 251 for i in range(1000))
    lines += [("%d bytes" % n, digest(pattern[:n])) for n in LENGTHS]
    for number, (key, message, published) in enumerate(SEALS, 1):
        code = hmac.new(key.ljust(32, b"\0"), message, hashlib.sha256).hexdigest()
        assert code == published, number
        lines.append(("seal %d" % number, code))
    return "".join("%s: %s\n" % line for line in lines)


def hash_chain():
    """Messages of 363 bytes, the first of zeros; each begins with the digest of the one before it."""
    rest = bytes(363 - 32)
    last = bytes(32)
    for _ in range(CHAIN):
        last = hashlib.sha256(last + rest).digest()
    return "%d messages of 363 bytes: %s\n" % (CHAIN, last.hex())


def check():
    for name, expected in (("vectors", vectors()), ("hash_chain", hash_chain())):
        got = subprocess.run(["crates/%s/out/%s" % (name, name)], stdout=subprocess.PIPE, check=True).stdout.decode("ascii")
        if got != expected:
            sys.exit("%s prints something else" % name)
        print("%s: alike" % name)


def main():
    mode = sys.argv[1] if len(sys.argv) > 1 else ""
    if mode == "vectors":
        sys.stdout.write(vectors())
    elif mode == "hash_chain":
        sys.stdout.write(hash_chain())
    elif mode == "check":
        check()
    else:
        sys.exit(__doc__)


main()
