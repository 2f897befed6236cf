"""Files near the greatest input, of shapes that are hostile to a reader: of each its name, the pieces of its text, and the model's answer."""
from itertools import repeat

from .batch import Table
from .texts import Matrix, lines
from .transcript import Draws

# 64 MB and somewhat less: the greatest input has 67,108,864 bytes
SIZE = 64_000_000
ZERO = b"0\n"
# one swap table of one row, of zeros
STATED = (1, 1, 1, 0, 0, 0, 0)
# what is opened of it, its terminal, its degree bits and no lookup grinding value
OPENED = (1, 2, *[0] * 8, 1, 2, *[0] * 8, 0, 1, 4, *[0] * 16, 0, 0, 0, 1, 0, 1, 0, 0)


def zeros(count):
    """So many lines, in pieces."""
    for _ in range(count >> 20):
        yield ZERO * (1 << 20)
    yield ZERO * (count & ((1 << 20) - 1))


def digits():
    """One number of 60 million digits, in the place of the number of tables."""
    yield b"1\n"
    yield b"9" * 60_000_000
    yield b"\n"


def tables():
    """30 million tables announced, and as many lines."""
    yield lines((1, 30_000_000))
    yield from zeros(30_000_000)


def matrices(most):
    """A commitment to zeros, with as many as fit: the numbers before them, and how many they are."""
    return (1, 16384, most // 16384), most // 16384 * 16384


def degree_bits():
    """Degree bits at their greatest, 1024 of them, after a commitment to many zeros."""
    head, count = matrices(30_000_000)
    yield lines((*STATED, *head))
    yield from zeros(count)
    yield lines((0, 0, 0, 0, 0, 1024, *[255] * 1024, 0, 0))


def instances():
    """1024 tables opened in place of one, with some eight million values."""
    yield lines((*STATED, 0, 0, 0, 0, 1024))
    each = SIZE // 8 // 1024
    for _ in range(1024):
        yield lines((each,))
        yield ZERO * (4 * each)
        yield ZERO * 6
    yield lines((1, 0, 1, 0, 0, 0))


def chunks():
    """1024 chunks opened in place of one, with as many."""
    yield lines((*STATED, 0, 0, 0, 0, 1, 2, *[0] * 8, 1, 2, *[0] * 8, 0, 1024))
    each = SIZE // 8 // 1024
    for _ in range(1024):
        yield lines((each,))
        yield ZERO * (4 * each)
    yield lines((0, 0, 0, 1, 0, 1, 0, 0, 0))


def committed(in_main):
    """30 million committed zeros, with a grinding value that passes, so that the openings are reached."""
    head, count = matrices(30_000_000)
    width = 4 if in_main else 2
    large, small = [Matrix(*head[1:], repeat(0, count))], [Matrix(width, 2, [0] * (2 * width))]
    draws = Draws([Table(1, 0, [0, 0, 0])], 1)
    draws.begin([0], large if in_main else small, [])
    draws.constraint()
    witness, _, _ = draws.point(small if in_main else large)
    small = (1, small[0].width, 2, *small[0].values)
    yield lines((*STATED, *(head if in_main else (*small, 0, *head))))
    yield from zeros(count)
    yield lines((*((0, *small) if in_main else ()), 0, *OPENED, witness))


SHAPES = (
    ("one number of 60 million digits", digits, "bad input at line 2"),
    ("30 million tables announced", tables, "bad input at line 2"),
    ("degree bits at their greatest", degree_bits, "refused HeightMismatch 0"),
    ("claims of 1024 tables", instances, "refused InstanceCountMismatch"),
    ("claims of 1024 chunks", chunks, "refused QuotientChunksCountMismatch 0 1 1024"),
    ("30 million committed zeros of traces", lambda: committed(True), "refused InvalidOpeningArgument Dimensions 0 0"),
    ("30 million committed zeros of quotients", lambda: committed(False), "refused InvalidOpeningArgument Dimensions 1 0"),
)
