"""The comparison behind check-stand-ins: check_stand_ins.py ORACLE PUBLISHED."""

import random
import subprocess
import sys
import zlib

try:
    from cryptography.hazmat.primitives.ciphers import Cipher, algorithms
except ImportError:
    Cipher = None

LAST_BLOCK = 2**32 - 1


def ask(oracle, words, data):
    """What the command line answers to the data."""
    return subprocess.run([oracle, *words], input=data, stdout=subprocess.PIPE, check=True).stdout


def chacha20(oracle, key, nonce, position, data):
    """The stand-in's answer."""
    return ask(oracle, ["chacha20", key.hex(), nonce.hex(), str(position)], data)


def openssl(key, nonce, position, data):
    """OpenSSL's answer; it starts at a block, so the bytes of it before the position are thrown away."""
    block, skip = divmod(position, 64)
    start = block.to_bytes(4, "little") + nonce
    encryptor = Cipher(algorithms.ChaCha20(key, start), mode=None).encryptor()
    return encryptor.update(bytes(skip) + data)[skip:]


def published_cases(path):
    """Key, nonce, position, plaintext and ciphertext of each published case."""
    with open(path, encoding="ascii") as lines:
        for line in lines:
            if not line.startswith("#"):
                key, nonce, position, plain, cipher = line.split()
                yield bytes.fromhex(key), bytes.fromhex(nonce), int(position, 16), \
                    bytes.fromhex(plain), bytes.fromhex(cipher)


def chacha20_parts(chance):
    """Positions and lengths: near the start, anywhere, and up to the last byte of the last block."""
    for _ in range(300):
        yield chance.randrange(200), chance.randrange(400)
    for _ in range(300):
        yield chance.randrange(64 * LAST_BLOCK - 4000), chance.randrange(4000)
    for left in range(1, 130):
        yield 64 * (LAST_BLOCK + 1) - left, left


def messages(chance):
    """Bytes of each length up to 300, and some longer ones."""
    for length in [*range(301), *(chance.randrange(100_000) for _ in range(200))]:
        yield chance.randbytes(length)


def report(what, answers):
    """Prints the line of a comparison; answers are pairs. Gives the number that differ."""
    different = compared = 0
    for ours, theirs in answers:
        compared += 1
        different += ours != theirs
    print(f"{what}: {compared} compared, {different} different")
    return different


def main(oracle, published):
    """All comparisons, in a fixed order of chance."""
    chance = random.Random(1)
    different = report("chacha20, RFC 8439's vectors", (
        (chacha20(oracle, key, nonce, position, plain), cipher)
        for key, nonce, position, plain, cipher in published_cases(published)))

    if Cipher is None:
        print("chacha20, OpenSSL: python3's cryptography is absent, not compared")
    else:
        cases = [(chance.randbytes(32), chance.randbytes(12), position, chance.randbytes(length))
                 for position, length in chacha20_parts(chance)]
        different += report("chacha20, OpenSSL through python3's cryptography", (
            (chacha20(oracle, *case), openssl(*case)) for case in cases))

    different += report("crc32fast, zlib", (
        (ask(oracle, ["crc32"], message), b"%08x\n" % zlib.crc32(message))
        for message in messages(chance)))
    return 1 if different else 0


if __name__ == "__main__":
    sys.exit(main(*sys.argv[1:]))
