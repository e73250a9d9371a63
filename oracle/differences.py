"""What the Rust alone decides, and where it and the scope part: differences.py ORACLE."""

import struct
import subprocess
import sys

MINUS_ZERO = struct.pack("<I", 0x80000000)
PLANE = 256 * 256

oracle = sys.argv[1]
failed = 0


def ask(words, data=b""):
    """What the command line answers; a refusal is an answer too."""
    command = [oracle, *words.split()]
    answer = subprocess.run(command, input=data, stdout=subprocess.PIPE, check=False)
    if answer.returncode > 1:
        sys.exit(f"oracle {words} failed")
    return answer.stdout


def line(words, data=b""):
    """An answer of one line."""
    return ask(words, data).decode().strip()


def floats(values):
    """f32, little-endian."""
    return struct.pack(f"<{len(values)}f", *values)


def values(data):
    """The f32 of an answer."""
    return struct.unpack(f"<{len(data) // 4}f", data)


def bits(data):
    """The f32 of an answer, as patterns."""
    return [f"{word:08x}" for word in struct.unpack(f"<{len(data) // 4}I", data)]


def number(word):
    """The f32 of a pattern in hex."""
    return struct.unpack(">f", bytes.fromhex(word))[0]


def show(what, found, expected):
    """Prints a finding, and remembers where it does not hold."""
    global failed
    print(f"{what}\n    {found}")
    if found != expected:
        failed += 1
        print(f"    expected {expected}")


def plane_size():
    """A picture of one pixel has a plane as large as any other."""
    plane = ask("plane 1 1 3", bytes(3))
    show("Plane of a 1x1 picture, in f32: it is 256 x 256.", len(plane) // 4, PLANE)


def changed_votes(place):
    """The votes of a black 256x256 picture that change with a white pixel."""
    black = bytes(3 * PLANE)
    white = bytearray(black)
    white[3 * place:3 * place + 3] = b"\xff\xff\xff"
    before, after = (bits(ask("picture-votes 256 256 3", each)) for each in (black, bytes(white)))
    return [block for block in range(1024) if before[block] != after[block]]


def block_order():
    """Blocks run along rows."""
    show("Votes that change with the pixel in column 8, row 0, and with that in column 0, row 8, of a\n"
         "black 256x256 picture: block b is at row b / 32, column b % 32.",
         (changed_votes(8), changed_votes(8 * 256)), ([1], [32]))


def axes():
    """The first index of a coefficient is the vertical frequency."""
    block = [0.0] * 64
    block[1] = 1.0
    transform = bits(ask("forward", floats(block)))
    matrix = [[number(word) for word in row.split()] for row in line("matrix").split("\n")]
    flat, across, down = matrix[0][0], matrix[1][1], matrix[1][0]
    show("Coefficients (0,1) and (1,0) of a block that is 1 in row 0, column 1, else 0: the first index\n"
         "counts rows, that is, vertical frequency, and the second columns.",
         (transform[1], transform[8]), tuple(bits(floats([flat * across, flat * down]))))


def round_half_away(value):
    """Of a number that is not negative."""
    return int(value + 0.5)


def composed(picture, record):
    """A 512x512 picture marked stage by stage: what is upsampled is the marked plane less the plane."""
    plane = ask("plane 512 512 3", picture)
    marked = ask(f"embed {record}", plane)
    change = [after - before for after, before in zip(values(marked), values(plane))]
    upsampled = values(ask("resample 256 256 512 512", floats(change)))
    sums = values(floats([sample + upsampled[place // 3] for place, sample in enumerate(picture)]))
    return bytes(min(255, round_half_away(max(0.0, total))) for total in sums)


def the_change():
    """One change for three channels, made of whole planes."""
    picture = bytes([100, 150, 200]) * (512 * 512)
    marked = ask("mark 512 512 3 41", picture)
    show("512x512 picture of (100, 150, 200), marked whole and stage by stage, bytes that differ: the\n"
         "marked plane less the plane, in f32 and over all 64 places of a block, is upsampled and added\n"
         "to red, green and blue alike.",
         sum(a != b for a, b in zip(marked, composed(picture, line("record 41")))), 0)
    changes = [after - before for after, before in zip(marked, picture)]
    pixels = zip(changes[0::3], changes[1::3], changes[2::3])
    show("The same, pixels of 262,144 whose three samples change by different amounts: sample plus change\n"
         "is itself an f32, and near a half it rounds by the sample's size before it is rounded.",
         sum(len(set(pixel)) > 1 for pixel in pixels), 2)


def gathering():
    """A coded bit's sum starts from +0.0."""
    show("Votes of the coded bits where every block's vote is -0.0: gathering starts from +0.0.",
         set(bits(ask("gather", MINUS_ZERO * 1024))), {"00000000"})


def sums():
    """Iterator sums start from -0.0, accumulators from +0.0."""
    show("Coefficient (0,0) of a block of -0.0: the transform's sums start from -0.0.",
         bits(ask("forward", MINUS_ZERO * 64))[0], "80000000")
    show("A 1x1 plane of -0.0 resampled to 1x1: a column's sum starts from +0.0. A row's starts from -0.0,\n"
         "which therefore shows in no result.",
         bits(ask("resample 1 1 1 1", MINUS_ZERO)), ["00000000"])


def edges():
    """Numbers beyond the edge are added one by one."""
    column = floats([5.0] + [0.0] * 299)
    first = bits(ask("resample 1 300 1 256", column))[0]
    weights = [number(row.split()[3]) for row in line("window 300 256 0").split("\n")[5:]]
    beyond, at = weights[:2]
    together = values(floats([beyond + at]))[0] * 5.0
    show("300 to 256, i = 0, a column of 5 and then zeros: numbers -1 and 0 both stand for row 0 and are\n"
         "added one after the other; with their weights added first it would be the second value.",
         (first, bits(floats([together]))[0]), ("408325c6", "408325c5"))


def window_sum():
    """The sum of the tents is taken in rising j."""
    rows = [row.split() for row in line("window 261 256 50").split("\n")]
    first, last = int(rows[0][1]), int(rows[1][1])
    center, support = float(rows[2][1]), float(rows[3][1])
    tents = [1.0 - abs((j - center) / support) for j in range(first, last + 1)]
    falling = 0.0
    for tent in reversed([tent for tent in tents if tent > 0.0]):
        falling += tent
    show("261 to 256, i = 50, the window's sum, taken in rising j, and what it would be in falling j.",
         (rows[4][1], repr(falling)), ("1.0249042145593872", "1.024904214559387"))


def decoder():
    """A candidate must exceed minus infinity, so one that is not a number never wins."""
    soft = [0.0] * 748
    soft[0], soft[2] = float("inf"), float("-inf")
    record = "40" + "00" * 45
    show("Decoding with votes 0 and 2 plus and minus infinity, else zero: each state's best starts from\n"
         "minus infinity and gives way to a greater candidate only. One that is not a number never wins;\n"
         "were only the odd one held to that, an even one would stay, and the record would be all zeros.",
         line("decode", floats(soft)), f"{record} 7f800000")
    soft = [float("nan")] + [0.0] * 747
    show("Decoding with vote 0 not a number: the zero record, and the metric is minus infinity.",
         line("decode", floats(soft)), "00" * 46 + " ff800000")


def texts():
    """The scope's check of a text to be written takes what the reader refuses."""
    record = line("record c080")
    show("The text c0 80 is taken for writing by the scope, and its record is then refused; the Rust's\n"
         "type for text cannot hold it.", line(f"parse {record}"), "refused 12 0")


for finding in (plane_size, block_order, axes, the_change, gathering, sums, edges, window_sum,
                decoder, texts):
    finding()
sys.exit(1 if failed else 0)
