"""Makes a test picture as a binary PPM, and damages one: picture.py make OUT, noise IN OUT, halve IN OUT."""

import random
import sys

WIDTH, HEIGHT = 640, 512


def made():
    """A gradient with a texture of stripes and grain."""
    chance = random.Random(1)
    samples = bytearray()
    for y in range(HEIGHT):
        for x in range(WIDTH):
            texture = chance.randrange(13) + 10 * (x // 16 % 2 ^ y // 16 % 2)
            samples += bytes([40 + x // 5 + texture, 50 + y // 4 + texture, 160 - x // 8 + texture])
    return WIDTH, HEIGHT, samples


def noise(width, height, samples):
    """Every sample off by at most 6."""
    chance = random.Random(2)
    return width, height, bytearray(min(255, max(0, s + chance.randrange(-6, 7))) for s in samples)


def halve(width, height, samples):
    """Half as wide and half as high, each pixel the mean of four, and every pixel of that doubled again."""
    row = 3 * width
    out = bytearray()
    for y in range(0, height - 1, 2):
        line = bytearray()
        for at in range(y * row, y * row + 6 * (width // 2), 6):
            means = bytes(
                (samples[i] + samples[i + 3] + samples[i + row] + samples[i + row + 3] + 2) // 4
                for i in range(at, at + 3)
            )
            line += means + means
        out += line + line
    return 2 * (width // 2), 2 * (height // 2), out


def read(name):
    with open(name, "rb") as file:
        head = [file.readline() for _ in range(3)]
        width, height = map(int, head[1].split())
        return width, height, file.read()


def write(name, width, height, samples):
    with open(name, "wb") as file:
        file.write(b"P6\n%d %d\n255\n" % (width, height))
        file.write(samples)


words = sys.argv[1:]
if len(words) == 2 and words[0] == "make":
    write(words[1], *made())
elif len(words) == 3 and words[0] == "noise":
    write(words[2], *noise(*read(words[1])))
elif len(words) == 3 and words[0] == "halve":
    write(words[2], *halve(*read(words[1])))
else:
    sys.exit(__doc__)
