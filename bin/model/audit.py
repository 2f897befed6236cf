"""Every check of a proof file that fails, and every step of its transcript: what `explain` of stark_audit writes.

    cd bin && python3 -m model.audit <FILE            writes the report on a proof file, and ends with its status
    cd bin && python3 -m model.audit trusted <FILE    the same, where identities of hash tables, which aren't known here, are taken to hold"""
import sys

from .batch import (Refused, Table, Unknown, check_openings, constraints, fold, preprocessed_commitment, selectors)
from .field import ORDER, ZERO, add, basis_sum, mul
from .texts import HASH, WHEEL, BadInput, lines, read_file, file_numbers
from .transcript import Draws

# The greatest degree bits; the bits of both grinding values; what a table of kind take and one of kind give send at most in a row.
MOST, BITS, BOUNDS = 26, 4, {3: 1, 4: 1024}
VERSIONS = (1, 2)


def mismatched_heights(file):
    """Below both lengths, the stated tables whose heights aren't the proof's."""
    for i, (table, found) in enumerate(zip(file.statement, file.proof.degree_bits)):
        if table[1] != found:
            yield f"HeightMismatch {i}"


def counted(tables, publics, proof):
    return len(tables) == len(publics) == len(proof.instances) == len(proof.degree_bits) == len(proof.terminals)


def wrong_sizes(proof):
    # (no degree is too small, and no table has more than two chunks)
    return [f"DegreeBitsTooLarge {i} {MOST} {it}" for i, it in enumerate(proof.degree_bits) if it > MOST]


def wrong_lengths(i, table, publics, it, terminal):
    """What is opened of a table, each by its own condition."""
    declared = len(table.publics)
    if len(publics) != declared:
        yield f"PublicValuesLengthMismatch {declared} {len(publics)}"
    if len(it.trace_local) != table.width:
        yield f"TraceLocalWidthMismatch {i} {table.width} {len(it.trace_local)}"
    if table.has_next and (it.trace_next is None or len(it.trace_next) != table.width):
        yield f"TraceNextMismatch {i}"
    if not table.has_next and it.trace_next is not None:
        yield f"UnexpectedTraceNext {i}"
    if len(it.quotient_chunks) != table.chunks:
        yield f"QuotientChunksCountMismatch {i} {table.chunks} {len(it.quotient_chunks)}"
    if any(len(chunk) != 4 for chunk in it.quotient_chunks):
        yield f"QuotientChunkDimensionMismatch {i}"
    if it.random is not None and len(it.random) != 4:
        yield "RandomizationError"
    yield from wrong_preprocessed(i, table.preprocessed_width, it.preprocessed)
    width = 4 * (table.lookups + 1) if table.lookups else 0
    if len(it.permutation_local) != width or len(it.permutation_next) != width:
        yield f"PermutationWidthMismatch {i} {width}"
    if (terminal is not None) != bool(table.lookups):
        yield f"TerminalPresenceMismatch {i} {int(bool(table.lookups))} {int(terminal is not None)}"


def wrong_preprocessed(i, width, opened):
    if width == 0:
        if opened is not None:
            yield f"UnexpectedPreprocessedValues {i}"
        return
    # (no table declares next columns; an absent next row has no values, as an empty one)
    local, following = opened or ([], None)
    if opened is None or len(local) != width or len(following or []) != 0:
        yield f"PreprocessedWidthMismatch {i}"
    if following is not None and len(following) == 0:
        yield f"UnexpectedPreprocessedNext {i}"


def shape(tables, publics, proof):
    """The checks of the shape that fail, where later ones are asked only if the counts, and then the sizes, are right."""
    is_counted = counted(tables, publics, proof)
    if not is_counted:
        yield "InstanceCountMismatch"
    if proof.random is not None or any(it.random is not None for it in proof.instances):
        yield "RandomizationError"
    sizes = wrong_sizes(proof) if is_counted else []
    yield from sizes
    if not is_counted or sizes:
        return
    if sum(BOUNDS[table.kind] << bits for table, bits in zip(tables, proof.degree_bits) if table.lookups) >= ORDER:
        yield "MultiplicityBound 0"
    for i, (table, values, it, terminal) in enumerate(zip(tables, publics, proof.instances, proof.terminals)):
        yield from wrong_lengths(i, table, values, it, terminal)
    if (proof.permutation is not None) != any(it.lookups for it in tables):
        yield "CommitmentMismatch"


class Script:
    """The steps of a transcript, each drawn and printed, whatever its grinding values' tests answer."""

    def __init__(self, tables, publics, file):
        self.printed, self.proof, self.pair, self.lookup_passed = [], file.proof, None, True
        draws, proof = Draws(tables, file.version), file.proof
        challenger = draws.challenger
        for it in proof.degree_bits:
            challenger.observe(it, 0, 0, 0)
            self.step("degree_bits")
        self.observe(challenger, "main_commitment", proof.main)
        for it in publics:
            challenger.observe(*it)
            self.step("public_values")
        preprocessed = preprocessed_commitment(tables)
        if preprocessed:
            self.observe(challenger, "preprocessed_commitment", preprocessed)
        if any(it.lookups for it in tables):
            self.lookups(challenger)
        self.alpha = self.challenge(challenger, "constraint_challenge")
        self.observe(challenger, "quotient_commitment", proof.quotient)
        self.ood_passed = challenger.passes(proof.ood_pow, BITS)
        self.step("ood_pow " + ("passes" if self.ood_passed else "fails"))
        self.zeta = self.challenge(challenger, "zeta")
        self.step("opening_argument")
        self.step("opening_argument")

    def step(self, text):
        self.printed.append(f"step {len(self.printed)} {text}")

    def observe(self, challenger, label, commitment):
        challenger.observe_commitment(commitment)
        self.step(label)

    def challenge(self, challenger, label):
        found = challenger.sample_extension()
        self.step(" ".join(map(str, [label, *found])))
        return found

    def lookups(self, challenger):
        self.lookup_passed = challenger.passes(self.proof.lookup_pow, BITS)
        self.step("lookup_pow " + ("passes" if self.lookup_passed else "fails"))
        self.pair = self.challenge(challenger, "lookup_alpha"), self.challenge(challenger, "lookup_beta")
        self.observe(challenger, "permutation_commitment", self.proof.permutation)
        for it in self.proof.terminals:
            if it is not None:
                challenger.observe(*it)
                self.step("lookup_terminal")


def opening(tables, proof, preprocessed, zeta):
    """The first fault of what is opened."""
    try:
        check_openings(tables, proof, preprocessed, zeta)
        return []
    except Refused as refused:
        return [str(refused)]


def identities(tables, proof, script, is_trusted):
    """The tables whose identities don't hold. Those of hash tables aren't known here, and may be trusted."""
    together = lambda row: [basis_sum(row[at:at + 4]) for at in range(0, len(row), 4)]
    for i, (table, it, terminal) in enumerate(zip(tables, proof.instances, proof.terminals)):
        if table.kind == HASH:
            if not is_trusted:
                raise Unknown
            continue
        # (a periodic column has two values, and a table of one row has no preprocessed column of that height)
        vanishing = selectors(script.zeta, table.log_height)[3]
        if vanishing == ZERO:
            yield "OodPointInDomain"
            continue
        fixed = it.preprocessed[0] if it.preprocessed else []
        values = constraints(table, it.trace_local, it.trace_next, fixed, together(it.permutation_local), together(it.permutation_next),
                             script.pair, terminal, script.zeta)
        if fold(values, script.alpha) != mul(basis_sum(it.quotient_chunks[0]), vanishing):
            yield f"OodEvaluationMismatch {i}"


def audit(file, publics=None, is_trusted=False):
    """The printed steps, and the names of all checks that fail, for these public values in place of the file's."""
    stated, proof = [Table(*it) for it in file.statement], file.proof
    publics = publics if publics is not None else [it.publics for it in stated]
    failing = list(shape(stated, publics, proof))
    printed = []
    # (of what is random there is nothing, so where the shape is right the heights are those of the degree bits)
    if not failing:
        tables = [Table(kind, bits, values) for (kind, _, values), bits in zip(file.statement, proof.degree_bits)]
        has_lookups, script = any(it.lookups for it in tables), None
        if has_lookups and proof.lookup_pow is None:
            failing.append(f"MissingLookupPowWitness {BITS}")
        else:
            script = Script(stated, publics, file)
            printed = script.printed
            if not has_lookups and proof.lookup_pow is not None:
                failing.append("UnexpectedLookupPowWitness")
            if not script.lookup_passed:
                failing.append(f"LookupPowWitness {BITS}")
            if not script.ood_passed:
                failing.append(f"OodPowWitness {BITS}")
        others = [f"PreprocessedMetadataMismatch {i}" for i, (table, bits) in enumerate(zip(stated, proof.degree_bits))
                  if table.kind == WHEEL and table.log_height != bits]
        failing += others
        if script and not others:
            failing += opening(tables, proof, preprocessed_commitment(stated), script.zeta)
            failing += identities(tables, proof, script, is_trusted)
    total = ZERO
    for it in proof.terminals:
        total = add(total, it or ZERO)
    if total != ZERO:
        failing.append("TerminalSum")
    return printed, failing


def report(file, is_trusted=False):
    """The text of the report, and its status."""
    printed, failing = audit(file, is_trusted=is_trusted)
    failing = list(mismatched_heights(file)) + failing
    return "".join(it + "\n" for it in [*printed, *(f"fails {it}" for it in failing), f"failed {len(failing)}"]), int(bool(failing))


def explained(text, is_trusted=False):
    try:
        return report(read_file(text, VERSIONS), is_trusted)
    except BadInput as fault:
        return f"bad input at line {fault.args[0]}\n", 3


if __name__ == "__main__":
    written, status = explained(sys.stdin.buffer.read(), "trusted" in sys.argv[1:])
    sys.stdout.write(written)
    sys.exit(status)
