#!/usr/bin/env python3
"""Times SHA-256 over 64 MiB in messages of 363 bytes: the program `hash_chain` beside OpenSSL, in one run.

    (cd crates/hash_chain && rt run) && tools/hash_speed.py [ROUNDS]

OpenSSL's library runs the same chain of messages from a small C program, three times: as the machine has it, with
its hardware SHA instructions masked, and with every extension masked. The programs take turns; of each, the best
round counts. Needs cc and libcrypto.so.3.
"""
import os
import subprocess
import sys
import tempfile
import time

COUNT, LENGTH = 184873, 363

C_CHAIN = r"""
#include <stddef.h>
#include <stdio.h>
#include <string.h>

/* SHA256_CTX of libcrypto has 112 bytes */
typedef struct { unsigned long long words[14]; } context;
int SHA256_Init(context *);
int SHA256_Update(context *, const void *, size_t);
int SHA256_Final(unsigned char *, context *);

int main(void) {
    unsigned char message[%d] = {0}, digest[32];
    for (int i = 0; i < %d; i++) {
        context c;
        SHA256_Init(&c);
        SHA256_Update(&c, message, sizeof message);
        SHA256_Final(digest, &c);
        memcpy(message, digest, 32);
    }
    printf("%%d messages of %%d bytes: ", %d, %d);
    for (int i = 0; i < 32; i++)
        printf("%%02x", digest[i]);
    printf("\n");
    return 0;
}
""" % (LENGTH, COUNT, COUNT, LENGTH)

# what of the processor's extensions OpenSSL may use
MASKS = [
    ("OpenSSL, hardware SHA", None),
    ("OpenSSL, hardware SHA masked", ":~0x20000000"),
    ("OpenSSL, every extension masked", "0:0"),
]


def timed(command, mask):
    env = dict(os.environ)
    env.pop("OPENSSL_ia32cap", None)
    if mask is not None:
        env["OPENSSL_ia32cap"] = mask
    start = time.perf_counter()
    out = subprocess.run(command, env=env, stdout=subprocess.PIPE, check=True).stdout
    return time.perf_counter() - start, out


def main():
    rounds = int(sys.argv[1]) if len(sys.argv) > 1 else 15
    with tempfile.TemporaryDirectory() as folder:
        source, program = os.path.join(folder, "chain.c"), os.path.join(folder, "chain")
        with open(source, "w", encoding="ascii") as f:
            f.write(C_CHAIN)
        subprocess.run(["cc", "-O3", "-o", program, source, "-l:libcrypto.so.3"], check=True)
        runs = [("hash_chain", ["crates/hash_chain/out/hash_chain"], None)] + [(name, [program], mask) for name, mask in MASKS]
        best, outs = {}, set()
        for _ in range(rounds):
            for name, command, mask in runs:
                seconds, out = timed(command, mask)
                best[name] = min(best.get(name, seconds), seconds)
                outs.add(out)
    if len(outs) != 1:
        sys.exit("the digests differ: %s" % outs)
    size = COUNT * LENGTH / 1e6
    ours = best["hash_chain"]
    for name, _, _ in runs:
        print("%-32s %4.0f MB/s   ours is %.2f of it" % (name, size / best[name], best[name] / ours))


main()
