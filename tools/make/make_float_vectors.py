#!/usr/bin/env python3
"""Makes the stored cases of the test program float_vectors.

    tools/make/make_float_vectors.py            writes crates/float_vectors/stdin and stdout
    tools/make/make_float_vectors.py --check    says whether the two files are what it would write
    tools/make/make_float_vectors.py --oracle PROGRAM
                                                says whether the Rust oracle gives the same results

A case is five little-endian 64-bit words: the id of a function, x, y, and two results (0 where there
is none). Nothing here comes from the port, nor from the Rust oracle. Where each result comes from:

    abs, is_finite, infinity    the bits of an f64, as IEEE 754 lays them out
    add sub mul div             the machine's IEEE unit, by Python's float; each is held against the
                                exact rational result, rounded here to the nearest, ties to even
    sqrt                        the machine's, by math.sqrt; each is held against whole numbers
    cbrt                        whole numbers alone: the nearest f64 to the root
    rem_tau                     the C library's fmod, by math.fmod; each is held against whole numbers
    sin cos sin_cos atan2       document 01's words, written out below in Python's float operations
    rem_euclid_tau, wrap_to_pi  likewise, over math.fmod
    inverse_wrap_to_pi          inverse.rs's wrap_to_pi, likewise

The arguments are special values in all pairs, and numbers from a generator of its own (splitmix64),
so that every machine makes the same bytes. Python 3 and its standard library; a machine whose float
is the IEEE 754 f64.
"""
import math
import os
import struct
import subprocess
import sys
from fractions import Fraction

NAMES = ["abs", "is_finite", "sqrt", "cbrt", "sin", "cos", "sin_cos", "atan2", "rem_tau",
         "rem_euclid_tau", "wrap_to_pi", "inverse_wrap_to_pi", "infinity", "add", "sub", "mul", "div"]
ID = {name: i for i, name in enumerate(NAMES)}

PI = 3.141592653589793
TAU = 6.283185307179586
FRAC_PI_2 = 1.5707963267948966
FRAC_PI_4 = 0.7853981633974483
INFINITY = float("inf")
NAN = float("nan")

SIGN = 1 << 63
ONE = 0x3FF0000000000000
INFINITE = 0x7FF0000000000000
LARGEST = INFINITE - 1
NORMAL = 1 << 52  # the smallest normal number


# ---- words and numbers

def number(word):
    return struct.unpack("<d", struct.pack("<Q", word))[0]


def word_of(x):
    if x != x:
        return 0x7FF8000000000000
    return struct.unpack("<Q", struct.pack("<d", x))[0]


def sign_bit(x):
    return math.copysign(1.0, x) < 0.0


def whole(x):
    """m and e such that the size of x, a finite number, is m * 2^e."""
    b = word_of(x) & ~SIGN
    field, digits = b >> 52, b & (NORMAL - 1)
    return (digits, -1074) if field == 0 else (digits | NORMAL, field - 1075)


# ---- exact arithmetic, to hold the machine's results against

def nearest(n, d):
    """The f64 nearest to n / d, both whole and above zero; ties to even."""
    e = max(n.bit_length() - d.bit_length() - 53, -1074)
    while True:
        top, under = n << max(-e, 0), d << max(e, 0)
        q, r = divmod(top, under)
        if q < 1 << 53:
            break
        e += 1
    if 2 * r > under or (2 * r == under and q & 1):
        q += 1
    return math.ldexp(q, e) if q.bit_length() + e <= 1024 else INFINITY


def held(result, x, y, exact, is_negative_zero):
    """result, once it is seen to be the exact result rounded, where there is one."""
    if math.isfinite(x) and math.isfinite(y):
        value = exact(Fraction(x), Fraction(y))
        size = nearest(abs(value).numerator, value.denominator) if value else 0.0
        is_negative = value < 0 if value else is_negative_zero
        assert word_of(result) == word_of(-size if is_negative else size), (x, y, result)
    return result


def add(x, y):
    return held(x + y, x, y, lambda a, b: a + b, sign_bit(x) and sign_bit(y))


def sub(x, y):
    return held(x - y, x, y, lambda a, b: a - b, sign_bit(x) and not sign_bit(y))


def mul(x, y):
    return held(x * y, x, y, lambda a, b: a * b, sign_bit(x) != sign_bit(y))


def div(x, y):
    if y == 0.0:  # Python raises an error here; IEEE 754 has an infinity, or a NaN
        if x == 0.0 or x != x:
            return NAN
        return -INFINITY if sign_bit(x) != sign_bit(y) else INFINITY
    return held(x / y, x, y, lambda a, b: a / b, sign_bit(x) != sign_bit(y))


# ---- roots

def sqrt(x):
    if x != x or x < 0.0:
        return NAN
    r = math.sqrt(x)
    if 0.0 < x < INFINITY:
        m, e = whole(x)
        s = 160 + e % 2  # digits enough that the whole root decides the rounding, or an odd last one does
        q = math.isqrt(m << s)
        q = 2 * q + (q * q != m << s)
        k = (e - s) // 2 - 1
        assert r == nearest(q << max(k, 0), 1 << max(-k, 0)), x
    return r


def whole_cbrt(n):
    """The whole part of the cube root of n, by Newton's method from above."""
    r = 1 << (n.bit_length() // 3 + 1)
    while True:
        s = (2 * r + n // (r * r)) // 3
        if s >= r:
            return r
        r = s


def cbrt(x):
    if x == 0.0 or x != x or abs(x) == INFINITY:
        return x
    m, e = whole(x)
    s = 3 * 60 + e % 3
    q = whole_cbrt(m << s)
    q = 2 * q + (q * q * q != m << s)
    k = (e - s) // 3 - 1
    return math.copysign(nearest(q << max(k, 0), 1 << max(-k, 0)), x)


# ---- document 01: "% is exact, with the sign of its first operand; rem_euclid(TAU) is x % TAU, plus TAU if that is below zero"

def rem_tau(x):
    if not math.isfinite(x):
        return NAN
    t = math.fmod(x, TAU)
    m, e = whole(x)
    n, f = whole(TAU)
    low = min(e, f)
    assert abs(Fraction(t)) == Fraction((m << (e - low)) % (n << (f - low))) * Fraction(2) ** low
    assert sign_bit(t) == sign_bit(x)
    return t


def rem_euclid_tau(x):
    t = rem_tau(x)
    return t + TAU if t < 0.0 else t


def wrap_to_pi(theta):
    return rem_euclid_tau(theta + PI) - PI


def inverse_wrap_to_pi(theta):
    w = rem_euclid_tau(theta + PI) - PI
    return PI if w == -PI else w


# ---- document 01: "Sine and cosine are NaN for an infinity or NaN. Else t = x % TAU, k the whole number nearest to the f64
# quotient t / FRAC_PI_2 (halves toward zero), r = t - k * FRAC_PI_2, z = r * r. S = r * (nested sum in z of (-1)^j / (2j+1)!,
# j = 0 to 8), C = nested sum of (-1)^j / (2j)!, each coefficient one division, nesting from j = 8 down. For k modulo 4 =
# 0, 1, 2, 3 (-1 gives 3) sine is S, C, -S, -C and cosine C, -S, -C, S."

def nested(coefficients, z):
    total = coefficients[-1]
    for c in reversed(coefficients[:-1]):
        total = c + z * total
    return total


S_TERMS = [float((-1) ** j) / float(math.factorial(2 * j + 1)) for j in range(9)]
C_TERMS = [float((-1) ** j) / float(math.factorial(2 * j)) for j in range(9)]


def nearest_whole(q):
    """The whole number nearest to q, halves toward zero."""
    k = math.ceil(abs(Fraction(q)) - Fraction(1, 2))
    return -k if q < 0.0 else k


def sin_cos(x):
    if not math.isfinite(x):
        return NAN, NAN
    t = rem_tau(x)
    k = nearest_whole(t / FRAC_PI_2)
    r = t - float(k) * FRAC_PI_2
    z = r * r
    s = r * nested(S_TERMS, z)
    c = nested(C_TERMS, z)
    return [(s, c), (c, -s), (-s, -c), (-c, s)][k % 4]


# ---- document 01: "atan2(y, x): NaN if either is. u is the smaller size over the larger (0 if both are zero, 1 if both
# infinite). If u > 0.41421356, v = (u - 1) / (u + 1), else v = u. a = v * nested sum in v * v of (-1)^j / (2j+1), j = 0 to 20;
# plus FRAC_PI_4 in the first case. If |y| > |x|, FRAC_PI_2 - a. If x has its sign bit set, PI minus that. Then y's sign."

A_TERMS = [float((-1) ** j) / float(2 * j + 1) for j in range(21)]


def atan2(y, x):
    if y != y or x != x:
        return NAN
    small, large = sorted([abs(y), abs(x)])
    if large == 0.0:
        u = 0.0
    elif small == INFINITY:
        u = 1.0
    else:
        u = small / large
    if u > 0.41421356:
        v = (u - 1.0) / (u + 1.0)
        a = v * nested(A_TERMS, v * v) + FRAC_PI_4
    else:
        v = u
        a = v * nested(A_TERMS, v * v)
    if abs(y) > abs(x):
        a = FRAC_PI_2 - a
    if sign_bit(x):
        a = PI - a
    return -a if sign_bit(y) else a


# ---- arguments

class Generator:
    """splitmix64."""

    def __init__(self, seed):
        self.state = seed

    def word(self):
        self.state = (self.state + 0x9E3779B97F4A7C15) & 0xFFFFFFFFFFFFFFFF
        z = self.state
        z = ((z ^ (z >> 30)) * 0xBF58476D1CE4E5B9) & 0xFFFFFFFFFFFFFFFF
        z = ((z ^ (z >> 27)) * 0x94D049BB133111EB) & 0xFFFFFFFFFFFFFFFF
        return z ^ (z >> 31)

    def below(self, n):
        return self.word() % n

    def between(self, low, high):
        return low + self.below(high - low + 1)

    def of_size(self, low, high):
        """A number of either sign whose size is from 2^low to 2^high."""
        return (self.word() & (SIGN | (NORMAL - 1))) | ((1023 + self.between(low, high - 1)) << 52)

    def subnormal(self):
        return (self.word() & SIGN) | self.below(1 << self.between(1, 52))

    def short(self, digits):
        """An odd whole number of so many binary digits."""
        return (1 << (digits - 1)) | self.below(1 << (digits - 1)) | 1


def signed(g, word):
    return word ^ (g.word() & SIGN)


def beside(word, steps):
    """A word and its neighbours on either side."""
    return [word + i for i in range(-steps, steps + 1)]


SPECIALS = [s | b
            for b in (0, 1, 2, NORMAL >> 1, NORMAL - 1, NORMAL, ONE - 1, ONE, ONE + 1, 0x3FE0000000000000,
                      0x4000000000000000, word_of(FRAC_PI_2), word_of(PI), word_of(1e300), LARGEST, INFINITE)
            for s in (0, SIGN)] + [0x7FF8000000000000, 0xFFF0000000000001]

NANS = [INFINITE + 1, 0x7FF8000000000000, 0xFFF8000000000000, 0xFFFFFFFFFFFFFFFF, 0x7FFFFFFFFFFFFFFF]


def singles(g):
    """Special values, the borders of every size, and any patterns."""
    xs = SPECIALS + NANS
    xs += [signed(g, b) for b in beside(LARGEST - 2, 2) + beside(NORMAL, 2) + beside(ONE, 2)]
    xs += [signed(g, (e << 52) | g.below(NORMAL)) for e in range(0, 2047, 13)]
    xs += [g.subnormal() for _ in range(60)]
    xs += [g.word() for _ in range(150)]
    return xs


def sqrt_arguments(g):
    xs = singles(g)
    for _ in range(300):  # beside the square of a number halfway between two f64: the hardest to round
        m = 2 * g.between(1 << 52, (1 << 53) - 1) + 1
        near = nearest(m * m << 2 * g.below(400), 1 << 2 * g.below(400))
        xs += beside(word_of(near), 1)
    xs += [word_of(float(n * n)) for n in (g.short(26) for _ in range(60))]
    for k in range(-500, 501, 200):  # beside a power of 4
        xs += beside(word_of(math.ldexp(1.0, 2 * k)), 6)
    xs += [g.word() & ~SIGN for _ in range(150)]
    return xs


def cbrt_arguments(g):
    xs = singles(g)
    for _ in range(300):
        m = 2 * g.between(1 << 52, (1 << 53) - 1) + 1
        near = nearest(m ** 3 << 3 * g.below(200), 1 << 3 * g.below(300))
        xs += [signed(g, b) for b in beside(word_of(near), 1)]
    xs += [signed(g, word_of(float(n ** 3))) for n in (g.short(17) for _ in range(60))]
    for k in range(-300, 341, 128):  # beside a power of 8, where the root's exponent changes
        xs += [signed(g, b) for b in beside(word_of(math.ldexp(1.0, 3 * k)), 6)]
    xs += [g.word() for _ in range(150)]
    return xs


def turns(g):
    """Angles: beside multiples of a quarter and an eighth turn, small ones, and sizes to 1e300."""
    xs = singles(g)
    for k in list(range(1, 14)) + [g.between(14, 1 << g.between(5, 52)) for _ in range(40)]:
        for part in (FRAC_PI_2, FRAC_PI_4):
            xs += [signed(g, b) for b in beside(word_of(k * part), 2)]
    xs += [g.of_size(-4, 4) for _ in range(350)]
    xs += [g.of_size(-60, -4) for _ in range(60)]
    xs += [g.of_size(4, 60) for _ in range(80)]
    xs += [g.of_size(60, 996) for _ in range(80)]
    return xs


def special_pairs():
    return [(x, y) for x in SPECIALS for y in SPECIALS]


def sums(g):
    pairs = special_pairs()
    for _ in range(120):  # a tie: half a unit in the last place, with its neighbours
        x = g.of_size(-900, 900)
        half = word_of(math.ldexp(1.0, ((x >> 52) & 2047) - 1023 - 53))
        pairs += [(x, signed(g, half)), (signed(g, half + 1), x), (x, signed(g, half - 1))]
    for _ in range(120):  # nearly equal sizes
        x = g.of_size(-1000, 1000)
        pairs.append((x, (x ^ SIGN) ^ g.below(1 << g.between(1, 52))))
    for _ in range(250):  # overlapping digits
        e = g.between(-900, 900)
        pairs.append((g.of_size(e, e + 1), g.of_size(e - g.below(58), e + 1)))
    pairs += [(g.subnormal(), g.subnormal()) for _ in range(60)]
    pairs += [(g.of_size(-1022, -1018), g.of_size(-1022, -1018)) for _ in range(60)]
    pairs += [(g.of_size(1022, 1024), g.of_size(1022, 1024)) for _ in range(60)]
    pairs += [(g.word(), g.word()) for _ in range(80)]
    return pairs


def products(g):
    pairs = special_pairs()
    for _ in range(250):  # ties: a product of 54 digits, the last of them set
        a = g.between(2, 52)
        m, n = g.short(a), g.short(54 - a)
        if (m * n).bit_length() == 54:
            x, y = math.ldexp(m, g.between(-400, 400)), math.ldexp(n, g.between(-400, 400))
            pairs.append((signed(g, word_of(x)), signed(g, word_of(y))))
    for _ in range(120):  # ties and others below the normal numbers
        x = math.ldexp(g.short(g.between(2, 53)), g.between(-600, -530))
        pairs.append((word_of(x), signed(g, word_of(math.ldexp(1.0, g.between(-560, -480))))))
        e = g.between(-1022, 0)
        pairs.append((g.of_size(e, e + 1), g.of_size(-1080 - e + 56, -1010 - e) if e < -56 else g.of_size(-1022, -1000)))
    for _ in range(80):  # beside the largest number
        e = g.between(-200, 900)
        pairs.append((g.of_size(e, e + 1), g.of_size(1022 - e, 1024 - e) if e > 0 else g.of_size(1020, 1024)))
    pairs += [(g.of_size(-300, 300), g.of_size(-300, 300)) for _ in range(200)]
    pairs += [(g.word(), g.word()) for _ in range(100)]
    return pairs


def quotients(g):
    pairs = special_pairs()
    for _ in range(200):
        x = g.of_size(-300, 300)
        pairs.append((x, x ^ g.below(1 << g.between(1, 20))))  # beside 1
        y = g.short(g.between(2, 27))
        q = g.short(53 - y.bit_length())
        pairs.append((signed(g, word_of(float(q * y))), word_of(float(y))))  # exact
    for _ in range(120):  # ties and others below the normal numbers
        x = math.ldexp(g.short(g.between(2, 53)), g.between(-600, -530))
        pairs.append((word_of(x), signed(g, word_of(math.ldexp(1.0, g.between(480, 560))))))
        pairs.append((g.of_size(-530, -500), g.of_size(520, 540)))
    pairs += [(g.of_size(500, 520), g.of_size(-520, -500)) for _ in range(80)]
    pairs += [(g.of_size(-300, 300), g.of_size(-300, 300)) for _ in range(150)]
    pairs += [(g.word(), g.word()) for _ in range(100)]
    return pairs


def points(g):
    """The coordinates (y, x) of points."""
    pairs = special_pairs()
    pairs += [(g.of_size(-3, 3), g.of_size(-3, 3)) for _ in range(350)]
    for _ in range(150):  # beside the threshold, on either side of the diagonal
        x = g.of_size(-20, 20)
        y = word_of(number(x) * 0.41421356) + g.between(-2, 2)
        pairs.append((signed(g, y), x) if g.below(2) else (x, signed(g, y)))
    for _ in range(100):  # beside the diagonal
        x = g.of_size(-300, 300)
        pairs.append((signed(g, x + g.between(-2, 2)), x))
    pairs += [(g.of_size(-1022, 1024), g.of_size(-1022, 1024)) for _ in range(150)]
    pairs += [(g.subnormal(), g.subnormal()) for _ in range(60)]
    pairs += [(g.word(), g.word()) for _ in range(100)]
    return pairs


# ---- the cases

def one_result(name, function, xs):
    return [(ID[name], x, 0, word_of(function(number(x))), 0) for x in xs]


def of_pairs(name, function, pairs):
    return [(ID[name], x, y, word_of(function(number(x), number(y))), 0) for x, y in pairs]


def cases():
    # one generator for each set of arguments, so that a change to one leaves the others as they are
    angles, plain = turns(Generator(4)), singles(Generator(1))
    out = [(ID["abs"], x, 0, x & ~SIGN if number(x) == number(x) else word_of(NAN), 0) for x in plain]
    out += [(ID["is_finite"], x, 0, int((x & ~SIGN) < INFINITE), 0) for x in plain]
    out += one_result("sqrt", sqrt, sqrt_arguments(Generator(2)))
    out += one_result("cbrt", cbrt, cbrt_arguments(Generator(3)))
    out += one_result("sin", lambda x: sin_cos(x)[0], angles)
    out += one_result("cos", lambda x: sin_cos(x)[1], angles)
    out += [(ID["sin_cos"], x) + (0,) + tuple(word_of(r) for r in sin_cos(number(x))) for x in turns(Generator(6))]
    out += of_pairs("atan2", atan2, points(Generator(7)))
    for name, function in (("rem_tau", rem_tau), ("rem_euclid_tau", rem_euclid_tau),
                           ("wrap_to_pi", wrap_to_pi), ("inverse_wrap_to_pi", inverse_wrap_to_pi)):
        out += one_result(name, function, turns(Generator(ID[name])))
    out += [(ID["infinity"], 0, 0, INFINITE, 0)]
    for name, function, pairs in (("add", add, sums), ("sub", sub, sums), ("mul", mul, products), ("div", div, quotients)):
        out += of_pairs(name, function, pairs(Generator(ID[name])))
    return out


def table(records):
    counts = [sum(1 for r in records if r[0] == i) for i in range(len(NAMES))]
    lines = ["%s cases %d mismatches 0\n" % pair for pair in zip(NAMES + ["total"], counts + [len(records)])]
    return "".join(lines).encode()


def plain(word):
    """The word, or the one that stands here for every NaN: which bits a NaN has is open."""
    return word if word & ~SIGN <= INFINITE else word_of(NAN)


def check_with(oracle, records):
    """Stops unless the Rust oracle, a second source, gives the same result words."""
    for i, name in enumerate(NAMES):
        mine = [r for r in records if r[0] == i]
        arguments = {"infinity": 0, "atan2": 2, "add": 2, "sub": 2, "mul": 2, "div": 2}.get(name, 1)
        results = 2 if name == "sin_cos" else 1
        lines = "".join(" ".join("%016x" % w for w in r[1:1 + arguments]) + "\n" for r in mine)
        called = "wrap_to_pi_inverse" if name == "inverse_wrap_to_pi" else name
        told = subprocess.run([oracle, "call", called], input=lines, stdout=subprocess.PIPE, text=True, check=True)
        theirs = [[plain(int(w, 16)) for w in line.split()] for line in told.stdout.splitlines()]
        if theirs != [list(r[3:3 + results]) for r in mine]:
            sys.exit("%s: the oracle has another result" % name)


def files_of(records):
    return {"stdin": b"".join(struct.pack("<5Q", *r) for r in records), "stdout": table(records)}


def main(words):
    # an IEEE 754 f64 that rounds once: with more digits in between the sum would be 2^53
    assert sys.float_info.mant_dig == 53 and 9007199254740992.0 + number(word_of(1.0) + 1) == 9007199254740994.0
    records = cases()
    folder = os.path.join(os.path.dirname(os.path.abspath(__file__)), "..", "..", "crates", "float_vectors")
    if words[:1] == ["--oracle"]:
        check_with(words[1], records)
    for name, data in files_of(records).items():
        path = os.path.join(folder, name)
        if words:
            with open(path, "rb") as f:
                if f.read() != data:
                    sys.exit("crates/float_vectors/%s is not what this program makes" % name)
        else:
            with open(path, "wb") as f:
                f.write(data)
    print("%d cases, %d bytes" % (len(records), 40 * len(records)))


main(sys.argv[1:])
