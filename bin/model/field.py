"""BabyBear, its extension of degree four, and polynomials over both. A base element is a number, an extension element a tuple of four."""

ORDER = 2013265921
GENERATOR = 31
# the fourth power of the extension's x
FOURTH = 11
ZERO = (0, 0, 0, 0)
ONE = (1, 0, 0, 0)


def inverse(a):
    return pow(a, ORDER - 2, ORDER)


def root(log_size):
    """The generator of the subgroup of 2^log_size elements."""
    return pow(GENERATOR, 15 << (27 - log_size), ORDER)


def lift(a):
    return (a % ORDER, 0, 0, 0)


def add(a, b):
    return tuple((x + y) % ORDER for x, y in zip(a, b))


def sub(a, b):
    return tuple((x - y) % ORDER for x, y in zip(a, b))


def scale(a, n):
    return tuple(x * n % ORDER for x in a)


def mul(a, b):
    (a0, a1, a2, a3), (b0, b1, b2, b3) = a, b
    return ((a0 * b0 + FOURTH * (a1 * b3 + a2 * b2 + a3 * b1)) % ORDER,
            (a0 * b1 + a1 * b0 + FOURTH * (a2 * b3 + a3 * b2)) % ORDER,
            (a0 * b2 + a1 * b1 + a2 * b0 + FOURTH * a3 * b3) % ORDER,
            (a0 * b3 + a1 * b2 + a2 * b1 + a3 * b0) % ORDER)


def power(a, n):
    found = ONE
    for bit in bin(n)[2:]:
        found = mul(found, found)
        if bit == "1":
            found = mul(found, a)
    return found


def invert(a):
    """The inverse of an extension element, by that of its norm. With y = x^2 it is (even + odd x), whose norm over F(y) is even^2 - y odd^2."""
    (e0, o0, e1, o1) = a
    low = (e0 * e0 + FOURTH * (e1 * e1 - 2 * o0 * o1)) % ORDER
    high = (2 * e0 * e1 - o0 * o0 - FOURTH * o1 * o1) % ORDER
    norm = inverse((low * low - FOURTH * high * high) % ORDER)
    low, high = low * norm % ORDER, -high * norm % ORDER
    times = lambda x, y: ((x * low + FOURTH * y * high) % ORDER, (x * high + y * low) % ORDER)
    (f0, f1), (g0, g1) = times(e0, e1), times(-o0, -o1)
    return (f0, g0, f1, g1)


def basis_sum(values):
    """The sum of four extension values times the powers of x."""
    found = ZERO
    for i, value in enumerate(values):
        found = add(found, mul(value, tuple(int(i == j) for j in range(4))))
    return found


def transform(values, generator):
    """The values at the powers of the generator of the polynomial with these coefficients, whose number is a power of two."""
    size = len(values)
    if size == 1:
        return list(values)
    square = generator * generator % ORDER
    even, odd = transform(values[::2], square), transform(values[1::2], square)
    low, high, at = [], [], 1
    for a, b in zip(even, odd):
        b = at * b % ORDER
        low.append((a + b) % ORDER)
        high.append((a - b) % ORDER)
        at = at * generator % ORDER
    return low + high


def coefficients(values, shift):
    """The coefficients of the interpolant of values on the coset of that shift."""
    log_size = len(values).bit_length() - 1
    found = transform(values, inverse(root(log_size)))
    at, step = inverse(len(values)), inverse(shift)
    for i, value in enumerate(found):
        found[i] = value * at % ORDER
        at = at * step % ORDER
    return found


def on_coset(coeffs, shift, log_size):
    """The values of a polynomial on the coset of that shift and size, which has at least as many points as there are coefficients."""
    scaled, at = [], 1
    for value in coeffs:
        scaled.append(value * at % ORDER)
        at = at * shift % ORDER
    return transform(scaled + [0] * ((1 << log_size) - len(scaled)), root(log_size))


def powers(point, count):
    """The first powers of an extension element, a list for each of the four coefficients."""
    found, at = [], ONE
    for _ in range(count):
        found.append(at)
        at = mul(at, point)
    return list(zip(*found))


def evaluate(coeffs, table):
    """A polynomial's value at the point whose powers these are."""
    return tuple(sum(map(int.__mul__, coeffs, column)) % ORDER for column in table)
