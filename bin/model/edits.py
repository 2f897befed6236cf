"""Edits of proof files as values, by name. Each takes a generator of random numbers and a file, and changes the file in place; an edit that
doesn't fit the file answers False. And edits of texts, line by line."""
from .field import ORDER, ZERO
from .texts import HASH, SWAP, Matrix

EDITS = {}


def edit(function):
    EDITS[function.__name__] = function
    return function


def random_element(rng):
    return rng.choice([0, 1, 2, ORDER - 1, rng.randrange(ORDER)])


def random_value(rng):
    return tuple(random_element(rng) for _ in range(4))


def raised(value, rng):
    at = rng.randrange(4)
    return tuple((it + (i == at)) % ORDER for i, it in enumerate(value))


def commitment_of(rng, proof):
    return rng.choice([it for it in (proof.main, proof.quotient, proof.permutation) if it] or [None])


def matrix_of(rng, proof):
    return rng.choice([it for it in commitment_of(rng, proof) or [] if it.values] or [None])


def instance_of(rng, proof):
    return rng.choice(proof.instances) if proof.instances else None


def rows_of(it):
    """The rows of values of an instance that are there and aren't empty."""
    rows = [it.trace_local, it.trace_next, it.random, it.permutation_local, it.permutation_next, *it.quotient_chunks, *(it.preprocessed or [])]
    return [row for row in rows if row]


# Of commitments.


@edit
def matrix_removed(rng, file):
    found = commitment_of(rng, file.proof)
    return bool(found) and found.pop(rng.randrange(len(found)))


@edit
def matrix_added(rng, file):
    found = commitment_of(rng, file.proof)
    return bool(found) and found.insert(rng.randrange(len(found) + 1), rng.choice(found))


@edit
def empty_matrix_added(rng, file):
    file.proof.main.append(Matrix(0, 0, []))


@edit
def matrices_exchanged(rng, file):
    found = commitment_of(rng, file.proof)
    return bool(found) and found.reverse()


@edit
def cell_raised(rng, file):
    found = matrix_of(rng, file.proof)
    if not found:
        return False
    at = rng.randrange(len(found.values))
    found.values[at] = (found.values[at] + 1) % ORDER


@edit
def column_raised(rng, file):
    found = matrix_of(rng, file.proof)
    if not found:
        return False
    column = rng.randrange(found.width)
    for at in range(column, len(found.values), found.width):
        found.values[at] = (found.values[at] + 1) % ORDER


@edit
def rows_halved(rng, file):
    found = matrix_of(rng, file.proof)
    if not found or found.height < 2:
        return False
    rows = [found.values[at:at + found.width] for at in range(0, len(found.values), 2 * found.width)]
    found.height, found.values = len(rows), sum(rows, [])


@edit
def column_removed(rng, file):
    found = matrix_of(rng, file.proof)
    if not found or found.width < 2:
        return False
    found.values = [it for at, it in enumerate(found.values) if at % found.width]
    found.width -= 1


@edit
def shape_turned(rng, file):
    found = matrix_of(rng, file.proof)
    if not found:
        return False
    found.width, found.height = found.height, found.width


@edit
def permutation_removed(rng, file):
    if file.proof.permutation is None:
        return False
    file.proof.permutation = None


@edit
def permutation_added(rng, file):
    if file.proof.permutation is not None:
        return False
    file.proof.permutation = rng.choice([[], file.proof.main])


@edit
def random_commitment_added(rng, file):
    file.proof.random = rng.choice([[], file.proof.main])


# Of opened values.


@edit
def instance_removed(rng, file):
    return bool(file.proof.instances) and file.proof.instances.pop(rng.randrange(len(file.proof.instances)))


@edit
def instance_added(rng, file):
    return bool(file.proof.instances) and file.proof.instances.append(file.proof.instances[0])


@edit
def value_raised(rng, file):
    rows = rows_of(instance_of(rng, file.proof)) if file.proof.instances else []
    if not rows:
        return False
    row = rng.choice(rows)
    at = rng.randrange(len(row))
    row[at] = raised(row[at], rng)


@edit
def value_removed(rng, file):
    rows = rows_of(instance_of(rng, file.proof)) if file.proof.instances else []
    return bool(rows) and rng.choice(rows).pop()


@edit
def current_row_cut(rng, file):
    found = [it for it in file.proof.instances if it.trace_local]
    return bool(found) and rng.choice(found).trace_local.pop()


@edit
def value_added(rng, file):
    rows = rows_of(instance_of(rng, file.proof)) if file.proof.instances else []
    return bool(rows) and rng.choice(rows).append(random_value(rng))


@edit
def next_row_removed(rng, file):
    found = [it for it in file.proof.instances if it.trace_next is not None]
    if not found:
        return False
    rng.choice(found).trace_next = None


@edit
def next_row_added(rng, file):
    found = [it for it in file.proof.instances if it.trace_next is None]
    if not found:
        return False
    it = rng.choice(found)
    it.trace_next = rng.choice([[], list(it.trace_local)])


@edit
def preprocessed_removed(rng, file):
    found = [it for it in file.proof.instances if it.preprocessed is not None]
    if not found:
        return False
    rng.choice(found).preprocessed = None


@edit
def preprocessed_added(rng, file):
    found = [it for it in file.proof.instances if it.preprocessed is None]
    if not found:
        return False
    rng.choice(found).preprocessed = rng.choice([([], None), ([], []), ([random_value(rng)], None)])


@edit
def preprocessed_next_added(rng, file):
    found = [it for it in file.proof.instances if it.preprocessed is not None]
    if not found:
        return False
    it = rng.choice(found)
    it.preprocessed = it.preprocessed[0], []


@edit
def preprocessed_next_filled(rng, file):
    found = [it for it in file.proof.instances if it.preprocessed is not None]
    if not found:
        return False
    it = rng.choice(found)
    it.preprocessed = it.preprocessed[0], [random_value(rng)]


@edit
def chunk_removed(rng, file):
    found = [it for it in file.proof.instances if it.quotient_chunks]
    return bool(found) and rng.choice(found).quotient_chunks.pop()


@edit
def chunk_repeated(rng, file):
    found = [it for it in file.proof.instances if it.quotient_chunks]
    if not found:
        return False
    it = rng.choice(found)
    it.quotient_chunks.append(list(it.quotient_chunks[0]))


@edit
def chunk_cut(rng, file):
    found = [chunk for it in file.proof.instances for chunk in it.quotient_chunks if chunk]
    return bool(found) and rng.choice(found).pop()


@edit
def random_opened(rng, file):
    if not file.proof.instances:
        return False
    instance_of(rng, file.proof).random = rng.choice([[], [random_value(rng)]])


@edit
def permutation_row_emptied(rng, file):
    found = [it for it in file.proof.instances if it.permutation_local and it.permutation_next]
    return bool(found) and rng.choice([rng.choice(found).permutation_local, rng.choice(found).permutation_next]).clear()


@edit
def permutation_row_added(rng, file):
    found = [it for it in file.proof.instances if not it.permutation_next]
    if not found:
        return False
    rng.choice(found).permutation_next = [random_value(rng) for _ in range(8)]


# Of what stands after them.


@edit
def terminal_removed(rng, file):
    found = [i for i, it in enumerate(file.proof.terminals) if it is not None]
    if not found:
        return False
    file.proof.terminals[rng.choice(found)] = None


@edit
def terminal_added(rng, file):
    found = [i for i, it in enumerate(file.proof.terminals) if it is None]
    if not found:
        return False
    file.proof.terminals[rng.choice(found)] = rng.choice([ZERO, random_value(rng)])


@edit
def terminal_raised(rng, file):
    found = [i for i, it in enumerate(file.proof.terminals) if it is not None]
    if not found:
        return False
    at = rng.choice(found)
    file.proof.terminals[at] = raised(file.proof.terminals[at], rng)


@edit
def terminals_cut(rng, file):
    if not file.proof.terminals:
        return False
    file.proof.terminals.pop()


@edit
def degree_bits_changed(rng, file):
    if not file.proof.degree_bits:
        return False
    file.proof.degree_bits[rng.randrange(len(file.proof.degree_bits))] = rng.choice([0, 1, 10, 26, 27, 63, 64, 255])


@edit
def degree_bits_cut(rng, file):
    return bool(file.proof.degree_bits) and file.proof.degree_bits.pop()


@edit
def lookup_grinding_removed(rng, file):
    if file.proof.lookup_pow is None:
        return False
    file.proof.lookup_pow = None


@edit
def lookup_grinding_added(rng, file):
    if file.proof.lookup_pow is not None:
        return False
    file.proof.lookup_pow = random_element(rng)


@edit
def lookup_grinding_changed(rng, file):
    if file.proof.lookup_pow is None:
        return False
    file.proof.lookup_pow = rng.randrange(ORDER)


@edit
def grinding_changed(rng, file):
    file.proof.ood_pow = rng.randrange(ORDER)


# Of the statement.


@edit
def height_stated_otherwise(rng, file):
    at = rng.randrange(len(file.statement))
    kind, log_height, publics = file.statement[at]
    file.statement[at] = kind, log_height % (3 if kind == HASH else 10) + 1, publics


@edit
def height_stated_and_proved_otherwise(rng, file):
    at = rng.randrange(len(file.statement))
    kind, log_height, publics = file.statement[at]
    log_height = log_height % (3 if kind == HASH else 10) + 1
    file.statement[at] = kind, log_height, publics
    if at >= len(file.proof.degree_bits):
        return False
    file.proof.degree_bits[at] = log_height


@edit
def public_value_changed(rng, file):
    found = [it[2] for it in file.statement if it[2]]
    if not found:
        return False
    rng.choice(found)[rng.randrange(3)] = random_element(rng)


@edit
def kind_changed(rng, file):
    at = rng.randrange(len(file.statement))
    kind = rng.choice([1, 2, 3, 4, 5])
    low, high = {2: (1, 10), 5: (0, 3)}.get(kind, (0, 10))
    publics = [random_element(rng) for _ in range(3)] if kind == SWAP else []
    file.statement[at] = kind, min(max(file.statement[at][1], low), high), publics


@edit
def table_removed(rng, file):
    return len(file.statement) > 1 and file.statement.pop(rng.randrange(len(file.statement)))


@edit
def table_added(rng, file):
    return len(file.statement) < 8 and file.statement.append(rng.choice(file.statement))


@edit
def tables_exchanged(rng, file):
    return len(file.statement) > 1 and file.statement.reverse()


# Texts.

NUMBERS = [0, 1, 2, 3, 4, 8, 10, 11, 255, 256, 1024, 1025, 4096, 4097, 16384, 65536, 65537, ORDER - 1, ORDER, 2**32 - 1, 2**32, 2**64 - 1, 2**64,
           10**30]
WORDS = [b"", b"00", b"01", b"+1", b"-1", b" 1", b"1 ", b"1\r", b"1.0", b"0x1", b"\x00", b"\xff", b"\xc2\xb2", b"x" * 40]


def mangled(rng, text):
    """A text with one to three edits of its lines, or cut."""
    for _ in range(rng.choice([1, 1, 1, 2, 3])):
        lines = text.split(b"\n")
        at = rng.randrange(len(lines))
        if len(lines) > 20 and rng.random() < 0.5:
            at = rng.randrange(20)
        change = rng.randrange(9)
        if change < 3:
            lines[at] = b"%d" % rng.choice(NUMBERS)
        elif change == 3:
            lines[at] = rng.choice(WORDS)
        elif change == 4:
            lines.insert(at, b"%d" % rng.choice(NUMBERS))
        elif change == 5:
            del lines[at]
        elif change == 6:
            lines.append(rng.choice([b"", b"0", b"x"]))
        elif change == 7 and lines[at].isdigit() and len(lines[at]) < 25:
            lines[at] = b"%d" % max(0, int(lines[at]) + rng.choice([-1, 1]))
        text = b"\n".join(lines)
        if change == 8 and text:
            text = text[:rng.randrange(len(text))]
    return text
