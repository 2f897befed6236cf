"""The texts of jobs and proof files: what each is, how it is written, and the line at fault of what is none."""
from dataclasses import dataclass, field

from .field import ORDER

SWAP, WHEEL, TAKE, GIVE, HASH = range(1, 6)
MOST_BYTES = 67108864


@dataclass
class Matrix:
    width: int
    height: int
    values: list


@dataclass
class Instance:
    trace_local: list
    trace_next: list | None
    # the row and the next row, which may be absent
    preprocessed: tuple | None
    quotient_chunks: list
    random: list | None
    permutation_local: list
    permutation_next: list


@dataclass
class Proof:
    main: list
    permutation: list | None
    quotient: list
    random: list | None
    instances: list
    terminals: list
    degree_bits: list
    lookup_pow: int | None
    ood_pow: int


@dataclass
class File:
    version: int
    # of each table its kind, the logarithm of its height, and its public values
    statement: list
    proof: Proof = field(repr=False)


class BadInput(Exception):
    """The line at fault, from 1."""


class Reader:
    def __init__(self, text):
        self.lines, self.at = text.split(b"\n"), 0
        # (what follows the last LF is no line)
        self.rest = self.lines.pop()

    def number(self, low, high):
        line = self.lines[self.at] if self.at < len(self.lines) else b""
        is_number = line.isdigit() and (line == b"0" or line[:1] != b"0") and len(line) <= 20
        if not is_number or not low <= int(line) <= high:
            raise BadInput(self.at + 1)
        self.at += 1
        return int(line)

    def element(self):
        return self.number(0, ORDER - 1)

    def extension(self):
        return tuple(self.element() for _ in range(4))

    def items(self, low, high, read, is_count=lambda count: True):
        count = self.number(low, high)
        if not is_count(count):
            raise BadInput(self.at)
        return [read() for _ in range(count)]

    def values(self):
        return self.items(0, 65536, self.extension)

    def option(self, read):
        return read() if self.number(0, 1) else None

    def end(self):
        if self.at < len(self.lines) or self.rest:
            raise BadInput(self.at + 1)

    def matrix(self):
        width = self.number(0, 16384)
        height = self.number(min(width, 1), 4096 if width else 0)
        return Matrix(width, height, [self.element() for _ in range(width * height)])

    def commitment(self):
        return self.items(0, 1024, self.matrix)

    def instance(self):
        local, following = self.values(), self.option(self.values)
        preprocessed = self.option(lambda: (self.values(), self.option(self.values)))
        chunks, random = self.items(0, 1024, self.values), self.option(self.values)
        return Instance(local, following, preprocessed, chunks, random, self.values(), self.values())

    def proof(self):
        main, permutation = self.commitment(), self.option(self.commitment)
        quotient, random = self.commitment(), self.option(self.commitment)
        instances = self.items(0, 1024, self.instance)
        terminals = self.items(0, 1024, lambda: self.option(self.extension))
        degree_bits = self.items(0, 1024, lambda: self.number(0, 255))
        return Proof(main, permutation, quotient, random, instances, terminals, degree_bits, self.option(self.element), self.element())

    def stated(self):
        kind = self.number(SWAP, HASH)
        if kind == SWAP:
            return kind, self.number(0, 10), [self.element() for _ in range(3)]
        return kind, self.number(*{WHEEL: (1, 10), TAKE: (0, 10), GIVE: (0, 10), HASH: (0, 3)}[kind]), []

    def table(self):
        """A table of a job: its kind, and its words."""
        kind = self.number(SWAP, HASH)
        if kind == SWAP:
            return kind, [self.number(0, 10), self.element(), self.element()]
        if kind == WHEEL:
            return kind, [self.number(1, 10)]
        item = {TAKE: lambda: [self.element()], GIVE: lambda: [self.element(), self.number(0, 1024)],
                HASH: lambda: [self.number(0, 2**32 - 1) for _ in range(24)]}[kind]
        return kind, self.items(1, 8 if kind == HASH else 1024, item, lambda it: it & (it - 1) == 0)


def read_job(text):
    reader = Reader(text)
    tables = reader.items(1, 8, reader.table)
    reader.end()
    return tables


def read_file(text, versions):
    reader = Reader(text)
    version = reader.number(min(versions), max(versions))
    statement = reader.items(1, 8, reader.stated)
    file = File(version, statement, reader.proof())
    reader.end()
    return file


def lines(numbers):
    return b"".join(b"%d\n" % it for it in numbers)


def job_numbers(tables):
    yield len(tables)
    for kind, words in tables:
        yield kind
        if kind in (SWAP, WHEEL):
            yield from words
        else:
            yield len(words)
            for it in words:
                yield from it


def of_commitment(commitment):
    yield len(commitment)
    for it in commitment:
        yield it.width
        yield it.height
        yield from it.values


def of_option(value, of):
    yield int(value is not None)
    if value is not None:
        yield from of(value)


def of_values(values):
    yield len(values)
    for it in values:
        yield from it


def of_preprocessed(rows):
    yield from of_values(rows[0])
    yield from of_option(rows[1], of_values)


def of_instance(it):
    yield from of_values(it.trace_local)
    yield from of_option(it.trace_next, of_values)
    yield from of_option(it.preprocessed, of_preprocessed)
    yield len(it.quotient_chunks)
    for chunk in it.quotient_chunks:
        yield from of_values(chunk)
    yield from of_option(it.random, of_values)
    yield from of_values(it.permutation_local)
    yield from of_values(it.permutation_next)


def proof_numbers(proof):
    yield from of_commitment(proof.main)
    yield from of_option(proof.permutation, of_commitment)
    yield from of_commitment(proof.quotient)
    yield from of_option(proof.random, of_commitment)
    yield len(proof.instances)
    for it in proof.instances:
        yield from of_instance(it)
    yield len(proof.terminals)
    for it in proof.terminals:
        yield from of_option(it, lambda value: value)
    yield len(proof.degree_bits)
    yield from proof.degree_bits
    yield from of_option(proof.lookup_pow, lambda value: [value])
    yield proof.ood_pow


def file_numbers(file):
    yield file.version
    yield len(file.statement)
    for kind, log_height, publics in file.statement:
        yield from (kind, log_height, *publics)
    yield from proof_numbers(file.proof)
