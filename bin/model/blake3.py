"""BLAKE3's compression on words."""

START = (0x6A09E667, 0xBB67AE85, 0x3C6EF372, 0xA54FF53A, 0x510E527F, 0x9B05688C, 0x1F83D9AB, 0x5BE0CD19)
ORDER = (2, 6, 3, 10, 7, 0, 4, 13, 1, 11, 12, 5, 9, 14, 15, 8)
LINES = ((0, 4, 8, 12), (1, 5, 9, 13), (2, 6, 10, 14), (3, 7, 11, 15), (0, 5, 10, 15), (1, 6, 11, 12), (2, 7, 8, 13), (3, 4, 9, 14))
MASK = 0xFFFFFFFF


def turned(word, by):
    return (word >> by | word << (32 - by)) & MASK


def compress(chaining, block, counter, length, flags):
    """The 16 words of the output."""
    v = [*chaining, *START[:4], counter & MASK, counter >> 32, length, flags]
    words = list(block)
    for _ in range(7):
        for g, (a, b, c, d) in enumerate(LINES):
            for word, (first, second) in zip(words[2 * g:2 * g + 2], ((16, 12), (8, 7))):
                v[a] = (v[a] + v[b] + word) & MASK
                v[d] = turned(v[d] ^ v[a], first)
                v[c] = (v[c] + v[d]) & MASK
                v[b] = turned(v[b] ^ v[c], second)
        words = [words[i] for i in ORDER]
    return [v[i] ^ v[i + 8] for i in range(8)] + [v[i + 8] ^ chaining[i] for i in range(8)]


def printed(rows):
    """The lines that `verify` prints of a hash table with these rows."""
    for i, row in enumerate(rows):
        words = [*row, i, 0, len(rows), 0]
        words += compress(row[16:24], row[:16], i, len(rows), 0)
        yield " ".join(f"{it:08x}" for it in words)
