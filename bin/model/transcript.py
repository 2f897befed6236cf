"""The challenger over SHA-256, and the draws along a batch proof's transcript."""
import hashlib

from .field import ORDER


class Challenger:
    def __init__(self, chain=bytes(32), left=0):
        self.chain, self.left = chain, left

    def copy(self):
        return Challenger(self.chain, self.left)

    def observe(self, *elements):
        self.observe_all(elements)

    def observe_all(self, elements):
        """Observes elements, of which there is at least one, or changes nothing."""
        chain, digest = self.chain, hashlib.sha256
        for it in elements:
            chain = digest(chain + it.to_bytes(4, "little")).digest()
        if chain is not self.chain:
            self.chain, self.left = chain, 0

    def sample(self):
        if not self.left:
            self.chain, self.left = hashlib.sha256(self.chain).digest(), 2
        half = self.chain[:16] if self.left == 2 else self.chain[16:]
        self.left -= 1
        return int.from_bytes(half, "little") % ORDER

    def sample_extension(self):
        return tuple(self.sample() for _ in range(4))

    def passes(self, witness, bits):
        """Whether a grinding value passes. No bits take the value zero alone, which isn't observed."""
        if not bits:
            return witness == 0
        self.observe(witness)
        return self.sample() % (1 << bits) == 0

    def ground(self, bits):
        """The least grinding value that passes."""
        return next(it for it in range(ORDER) if self.copy().passes(it, bits))

    def observe_commitment(self, commitment):
        self.observe(len(commitment))
        for it in commitment:
            self.observe(it.width, it.height)
            self.observe_all(it.values)


def eight(number):
    return number.to_bytes(8, "big")


def step(label, kind, value, length, hierarchy=0):
    """A typed step. The value is None for a marker, 0 for what is opaque, else its dimension; the length is None, 1 for one, or a list of a number."""
    tag, dimension = (0, 0) if value is None else (1, 0) if value == 0 else (2, value)
    length = (0, 0) if length is None else (2, length[0]) if isinstance(length, list) else (1, 1)
    return (bytes([hierarchy, kind, tag]) + eight(dimension) + eight(len(label)) + label.encode() + bytes([length[0]]) + eight(length[1]))


MESSAGE, PUBLIC, CHALLENGE, POW, PROTOCOL = range(5)


def separator(tables, version, lookup_bits, ood_bits):
    """The encoding of what the transcript of these tables is for."""
    steps = [step("degree_bits", MESSAGE, 4, 1) for _ in tables]
    steps.append(step("main_commitment", MESSAGE, 0, 1))
    steps += [step("public_values", PUBLIC, 1, [len(it.publics)]) for it in tables]
    if any(it.preprocessed_width for it in tables):
        steps.append(step("preprocessed_commitment", MESSAGE, 0, 1))
    sending = [it for it in tables if it.lookups]
    if sending:
        steps.append(step("lookup_pow", POW, 1, [lookup_bits]))
        steps += [step(name, CHALLENGE, 4, 1) for name in ("lookup_alpha", "lookup_beta")]
        steps.append(step("permutation_commitment", MESSAGE, 0, 1))
        steps += [step("lookup_terminal", MESSAGE, 4, 1) for _ in sending]
    steps.append(step("constraint_challenge", CHALLENGE, 4, 1))
    steps.append(step("quotient_commitment", MESSAGE, 0, 1))
    steps.append(step("ood_pow", POW, 1, [ood_bits]))
    steps.append(step("zeta", CHALLENGE, 4, 1))
    steps += [step("opening_argument", PROTOCOL, None, None, side) for side in (1, 2)]
    name = b"p3-batch-stark"
    label = [len(tables), *(it.width for it in tables), *(it.preprocessed_width for it in tables)]
    if version == 2:
        label += [it.lookups for it in tables]
    label = b"".join(map(eight, label))
    return bytes([version]) + eight(len(name)) + name + eight(len(steps)) + b"".join(steps) + eight(len(label)) + label


class Draws:
    """The transcript of a batch up to a place: each call takes the next steps."""

    def __init__(self, tables, version, bits=(4, 4)):
        self.tables, (self.lookup_bits, self.ood_bits) = tables, bits
        self.challenger = Challenger()
        self.challenger.observe(*separator(tables, version, *bits))

    def begin(self, degree_bits, main, preprocessed):
        """Observes what comes before the lookups' challenges."""
        for it in degree_bits:
            self.challenger.observe(it % ORDER, 0, 0, 0)
        self.challenger.observe_commitment(main)
        for it in self.tables:
            self.challenger.observe(*it.publics)
        if preprocessed:
            self.challenger.observe_commitment(preprocessed)

    def lookups(self, witness):
        """Whether the grinding value passes; then the lookups' pair, which is kept."""
        passed = self.challenger.passes(witness, self.lookup_bits)
        self.pair = self.challenger.sample_extension(), self.challenger.sample_extension()
        return passed

    def permutation(self, commitment, terminals):
        self.challenger.observe_commitment(commitment)
        for it in terminals:
            self.challenger.observe(*it)

    def constraint(self):
        return self.challenger.sample_extension()

    def point(self, quotient, witness=None):
        """Observes the quotients' commitment. Gives the grinding value, sought where none is given, whether it passes, and zeta."""
        self.challenger.observe_commitment(quotient)
        if witness is None:
            witness = self.challenger.ground(self.ood_bits)
        passed = self.challenger.passes(witness, self.ood_bits)
        return witness, passed, self.challenger.sample_extension()
