"""Batches of tables: what each kind declares, the traces of a job, the honest proof, and the first check that a proof fails. Of hash tables
there are the widths alone, so none of these is proved here, and no identity of theirs is known."""
from collections import Counter
from dataclasses import dataclass, field

from .field import (GENERATOR, ORDER, ZERO, ONE, add, basis_sum, coefficients, evaluate, inverse, invert, lift, mul, on_coset, power, powers,
                    root, scale, sub)
from .texts import GIVE, HASH, SWAP, TAKE, WHEEL, File, Instance, Matrix, Proof
from .transcript import Draws

WIDTHS = {SWAP: 2, WHEEL: 1, TAKE: 1, GIVE: 2, HASH: 9168}


@dataclass
class Table:
    kind: int
    log_height: int
    publics: list
    # the rows, where the table is one of a job
    rows: list = field(default=None, repr=False)

    def __post_init__(self):
        self.width, self.height = WIDTHS[self.kind], 1 << self.log_height
        self.preprocessed_width = int(self.kind == WHEEL)
        self.has_next = self.kind == SWAP
        self.lookups = int(self.kind in (TAKE, GIVE))
        self.chunks = 2 if self.kind == HASH else 1


def tables_of(job):
    """The tables of a job, with their rows."""
    found = []
    for kind, words in job:
        if kind == SWAP:
            k, a, b = words
            rows = [[b, a] if i % 2 else [a, b] for i in range(1 << k)]
            found.append(Table(kind, k, [a, b, rows[-1][1]], rows))
        elif kind == WHEEL:
            found.append(Table(kind, words[0], [], [[(i + 1) * (5 if i % 2 else 3) % ORDER] for i in range(1 << words[0])]))
        else:
            found.append(Table(kind, len(words).bit_length() - 1, [], words if kind != HASH else None))
    return found


def unbalanced(job):
    """The least word that isn't taken as often as it is given; None where there is none."""
    net = Counter()
    for kind, words in job:
        for it in words if kind in (TAKE, GIVE) else []:
            net[it[0]] += 1 if kind == TAKE else -it[1]
    return min((word for word, count in net.items() if count), default=None)


def columns(rows):
    return [list(it) for it in zip(*rows)]


def extended(polynomials, log_height):
    """The matrix by which columns are committed to: the values of their polynomials on the coset of twice the height."""
    values = [on_coset(it, GENERATOR, log_height + 1) for it in polynomials]
    return Matrix(len(values), 2 << log_height, [cell for row in zip(*values) for cell in row])


def polynomials_of(matrix):
    """The interpolants of the columns of a committed matrix, whose height is a power of two."""
    return [coefficients(matrix.values[i::matrix.width], GENERATOR) for i in range(matrix.width)]


def trace_polynomials(rows):
    return [coefficients(it, 1) for it in columns(rows)]


def preprocessed_polynomials(table):
    return trace_polynomials([[i + 1] for i in range(table.height)]) if table.preprocessed_width else []


def preprocessed_commitment(tables):
    return [extended(preprocessed_polynomials(it), it.log_height) for it in tables if it.preprocessed_width]


def selectors(point, log_height):
    """Of the first row, the last, all but the last, and the vanishing polynomial's value, at a point outside the domain."""
    last = lift(inverse(root(log_height)))
    vanishing = sub(power(point, 1 << log_height), ONE)
    from_last = sub(point, last)
    return mul(vanishing, invert(sub(point, ONE))), mul(vanishing, invert(from_last)), from_last, vanishing


def constraints(table, row, following, preprocessed, permutation, permutation_next, pair, terminal, point):
    """The values of a table's constraints, in order. All values are extension elements."""
    first, last, transition, _ = selectors(point, table.log_height)
    if table.kind == SWAP:
        a, b, x = map(lift, table.publics)
        (l, r), (l1, r1) = row, following
        return [mul(first, sub(l, a)), mul(first, sub(r, b)), mul(transition, sub(l1, r)), mul(transition, sub(r1, l)), mul(last, sub(r, x))]
    if table.kind == WHEEL:
        # (the periodic column 3, 5 is 4 - y of the point's power y)
        periodic = sub(lift(4), power(point, table.height // 2))
        return [sub(row[0], mul(preprocessed[0], periodic))]
    multiplicity = ONE if table.kind == TAKE else sub(ZERO, row[1])
    (sum_, fraction), (next_sum, _) = permutation, permutation_next
    after = add(sum_, fraction)
    return [sub(mul(fraction, sub(add(*pair), row[0])), multiplicity), mul(first, sum_),
            mul(transition, sub(next_sum, after)), mul(last, sub(terminal, after))]


def fold(values, alpha):
    found = ZERO
    for it in values:
        found = add(mul(found, alpha), it)
    return found


def permutation_rows(table, pair):
    """The rows of running sums and fractions, as base elements, and the terminal."""
    sum_, rows = ZERO, []
    for row in table.rows:
        multiplicity = 1 if table.kind == TAKE else -row[1]
        fraction = scale(invert(sub(add(*pair), lift(row[0]))), multiplicity)
        rows.append([*sum_, *fraction])
        sum_ = add(sum_, fraction)
    return rows, sum_


def quotient_columns(table, main, preprocessed, permutation, pair, terminal, alpha):
    """The four columns of a table's quotient, on the coset of its height."""
    log_height, size = table.log_height, table.height
    rows = lambda polynomials: list(zip(*[on_coset(it, GENERATOR, log_height) for it in polynomials])) or [()] * size
    main, preprocessed, permutation = [[list(map(lift, row)) for row in rows(it)] for it in (main, preprocessed)] + [
        [(row[:4], row[4:]) for row in rows(permutation)]]
    at, step, found = GENERATOR, root(log_height), []
    for i in range(size):
        after = (i + 1) % size
        values = constraints(table, main[i], main[after], preprocessed[i], permutation[i], permutation[after], pair, terminal, lift(at))
        vanishing = pow(at, size, ORDER) - 1
        found.append(scale(fold(values, alpha), inverse(vanishing)))
        at = at * step % ORDER
    return columns(found)


def stated(tables):
    return [(it.kind, it.log_height, it.publics) for it in tables]


def opened(matrix, points):
    """The values of a committed matrix's columns at points, a row for each."""
    polynomials = polynomials_of(matrix)
    tables = [powers(it, matrix.height) for it in points]
    return [[evaluate(it, table) for it in polynomials] for table in tables]


def open_all(tables, proof, preprocessed, zeta):
    """The rows that an honest prover opens at zeta of these commitments."""
    main, quotient = iter(proof.main), iter(proof.quotient)
    permutation, preprocessed = iter(proof.permutation or []), iter(preprocessed)
    found = []
    for it in tables:
        following = scale(zeta, root(it.log_height))
        local, after = opened(next(main), [zeta, following])
        fixed = (opened(next(preprocessed), [zeta])[0], None) if it.preprocessed_width else None
        chunks = [opened(next(quotient), [zeta])[0] for _ in range(it.chunks)]
        lookups = opened(next(permutation), [zeta, following]) if it.lookups else [[], []]
        found.append(Instance(local, after if it.has_next else None, fixed, chunks, None, *lookups))
    return found


def prove(tables, version, bits=(4, 4)):
    """The honest proof of tables with their rows, which need not balance."""
    draws = Draws(tables, version, bits)
    polynomials = [trace_polynomials(it.rows) for it in tables]
    main = [extended(it, table.log_height) for it, table in zip(polynomials, tables)]
    preprocessed = preprocessed_commitment(tables)
    degree_bits = [it.log_height for it in tables]
    draws.begin(degree_bits, main, preprocessed)
    witness, permutation, sums, terminals, pair = None, None, [[] for _ in tables], [None for _ in tables], None
    if any(it.lookups for it in tables):
        witness = draws.challenger.ground(bits[0])
        draws.lookups(witness)
        pair, permutation = draws.pair, []
        for i, it in enumerate(tables):
            if it.lookups:
                rows, terminals[i] = permutation_rows(it, pair)
                sums[i] = trace_polynomials(rows)
                permutation.append(extended(sums[i], it.log_height))
        draws.permutation(permutation, [it for it in terminals if it is not None])
    alpha = draws.constraint()
    quotient = []
    for i, it in enumerate(tables):
        values = quotient_columns(it, polynomials[i], preprocessed_polynomials(it), sums[i], pair, terminals[i], alpha)
        quotient.append(extended([coefficients(column, GENERATOR) for column in values], it.log_height))
    ood, _, zeta = draws.point(quotient)
    proof = Proof(main, permutation, quotient, None, [], terminals, degree_bits, witness, ood)
    proof.instances = open_all(tables, proof, preprocessed, zeta)
    return File(version, stated(tables), proof)


class Refused(Exception):
    """What comes after `refused`."""


class Unknown(Exception):
    """The checks of hash tables' identities aren't known here."""


def check_heights(file):
    for i, (table, found) in enumerate(zip(file.statement, file.proof.degree_bits)):
        if table[1] != found:
            raise Refused(f"HeightMismatch {i}")


def check_instance(i, table, it, terminal):
    """The shape of what is opened of a table."""
    if len(it.trace_local) != table.width:
        raise Refused(f"TraceLocalWidthMismatch {i} {table.width} {len(it.trace_local)}")
    if table.has_next and (it.trace_next is None or len(it.trace_next) != table.width):
        raise Refused(f"TraceNextMismatch {i}")
    if not table.has_next and it.trace_next is not None:
        raise Refused(f"UnexpectedTraceNext {i}")
    if len(it.quotient_chunks) != table.chunks:
        raise Refused(f"QuotientChunksCountMismatch {i} {table.chunks} {len(it.quotient_chunks)}")
    if any(len(chunk) != 4 for chunk in it.quotient_chunks):
        raise Refused(f"QuotientChunkDimensionMismatch {i}")
    check_preprocessed(i, table, it.preprocessed)
    width = 4 * (table.lookups + 1) if table.lookups else 0
    if len(it.permutation_local) != width or len(it.permutation_next) != width:
        raise Refused(f"PermutationWidthMismatch {i} {width}")
    if (terminal is not None) != bool(table.lookups):
        raise Refused(f"TerminalPresenceMismatch {i} {table.lookups} {int(terminal is not None)}")


def check_preprocessed(i, table, opened):
    if not table.preprocessed_width:
        if opened is not None:
            raise Refused(f"UnexpectedPreprocessedValues {i}")
    elif opened is None or len(opened[0]) != table.preprocessed_width or opened[1]:
        raise Refused(f"PreprocessedWidthMismatch {i}")
    elif opened[1] is not None:
        raise Refused(f"UnexpectedPreprocessedNext {i}")


def check_shape(tables, proof):
    if not len(proof.instances) == len(proof.degree_bits) == len(proof.terminals) == len(tables):
        raise Refused("InstanceCountMismatch")
    if proof.random is not None or any(it.random is not None for it in proof.instances):
        raise Refused("RandomizationError")
    for i, (table, it, terminal) in enumerate(zip(tables, proof.instances, proof.terminals)):
        check_instance(i, table, it, terminal)
    if (proof.permutation is not None) != any(it.lookups for it in tables):
        raise Refused("CommitmentMismatch")


def drawn(tables, file, preprocessed, mends):
    """Alpha and zeta, and the lookups' pair. Where it mends, a grinding value that fails is sought anew."""
    proof = file.proof
    draws = Draws(tables, file.version)
    draws.pair = None
    draws.begin(proof.degree_bits, proof.main, preprocessed)
    if not any(it.lookups for it in tables):
        if proof.lookup_pow is not None:
            raise Refused("UnexpectedLookupPowWitness")
    else:
        if proof.lookup_pow is None:
            raise Refused("MissingLookupPowWitness 4")
        if mends and not draws.challenger.copy().passes(proof.lookup_pow, 4):
            proof.lookup_pow = draws.challenger.ground(4)
        if not draws.lookups(proof.lookup_pow):
            raise Refused("LookupPowWitness 4")
        draws.permutation(proof.permutation, [it for it in proof.terminals if it is not None])
    alpha = draws.constraint()
    before = draws.challenger.copy()
    _, passed, zeta = draws.point(proof.quotient, proof.ood_pow)
    if mends and not passed:
        draws.challenger = before
        proof.ood_pow, passed, zeta = draws.point(proof.quotient)
    if not passed:
        raise Refused("OodPowWitness 4")
    return alpha, zeta, draws.pair


def claims(tables, instances):
    """The rounds: of each claimed matrix its table, and the rows that are said to be opened, each at zeta or at the next point."""
    main, quotient, preprocessed, permutation = [], [], [], []
    for table, it in zip(tables, instances):
        main.append((table, [it.trace_local] + ([it.trace_next] if table.has_next else [])))
        quotient += [(table, [chunk]) for chunk in it.quotient_chunks]
        if table.preprocessed_width:
            preprocessed.append((table, [it.preprocessed[0]]))
        if table.lookups:
            permutation.append((table, [it.permutation_local, it.permutation_next]))
    return main, quotient, preprocessed, permutation


def check_openings(tables, proof, preprocessed, zeta):
    rounds = [it for it in zip(claims(tables, proof.instances), (proof.main, proof.quotient, preprocessed, proof.permutation)) if it[0]]
    for r, (claimed, commitment) in enumerate(rounds):
        if len(claimed) != len(commitment):
            raise Refused(f"InvalidOpeningArgument RoundShape {r}")
        for m, ((table, rows), matrix) in enumerate(zip(claimed, commitment)):
            if matrix.height != 2 * table.height or any(len(row) != matrix.width for row in rows):
                raise Refused(f"InvalidOpeningArgument Dimensions {r} {m}")
            polynomials = polynomials_of(matrix)
            for c, it in enumerate(polynomials):
                if any(it[table.height:]):
                    raise Refused(f"InvalidOpeningArgument Degree {r} {m} {c}")
            for p, row in enumerate(rows):
                weights = powers(scale(zeta, root(table.log_height)) if p else zeta, table.height)
                for c, (it, value) in enumerate(zip(polynomials, row)):
                    if evaluate(it[:table.height], weights) != value:
                        raise Refused(f"InvalidOpeningArgument Value {r} {m} {p} {c}")


def check_identities(tables, proof, alpha, zeta, pair):
    for i, (table, it, terminal) in enumerate(zip(tables, proof.instances, proof.terminals)):
        if table.kind == HASH:
            raise Unknown
        together = lambda row: [basis_sum(row[at:at + 4]) for at in range(0, len(row), 4)]
        fixed = it.preprocessed[0] if it.preprocessed else []
        values = constraints(table, it.trace_local, it.trace_next, fixed, together(it.permutation_local), together(it.permutation_next),
                             pair, terminal, zeta)
        if fold(values, alpha) != mul(basis_sum(it.quotient_chunks[0]), selectors(zeta, table.log_height)[3]):
            raise Refused(f"OodEvaluationMismatch {i}")
    total = ZERO
    for it in proof.terminals:
        total = add(total, it or ZERO)
    if total != ZERO:
        raise Refused("TerminalSum")


def verdict(file, mends=False, reopens=False):
    """What `verify` answers, `accepted` or a refusal; None where the checks of a hash table would decide. Where it mends, grinding values that
    fail are sought anew in the file, and where it reopens, all is opened anew as far as it fits: so later checks are reached."""
    tables, proof = [Table(*it) for it in file.statement], file.proof
    try:
        check_heights(file)
        check_shape(tables, proof)
        preprocessed = preprocessed_commitment(tables)
        alpha, zeta, pair = drawn(tables, file, preprocessed, mends)
        if reopens and fits(tables, proof):
            proof.instances = open_all(tables, proof, preprocessed, zeta)
        check_openings(tables, proof, preprocessed, zeta)
        check_identities(tables, proof, alpha, zeta, pair)
    except Refused as refused:
        return f"refused {refused}"
    except Unknown:
        return None
    return "accepted"


def fits(tables, proof):
    """Whether the committed matrices are as many and as large as the tables ask."""
    wanted = ([(it.width, it) for it in tables], [(4, it) for it in tables for _ in range(it.chunks)], [(8, it) for it in tables if it.lookups])
    return all(len(asked) == len(found) and all((m.width, m.height) == (width, 2 * it.height) for (width, it), m in zip(asked, found))
               for asked, found in zip(wanted, (proof.main, proof.quotient, proof.permutation or [])))
