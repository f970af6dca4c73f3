#!/usr/bin/env python3
"""The largest distance seen between the sine of document 01's rule and the exact sum of document 02's request 4.

    tools/measure/sine_distance.py [--count COUNT] [--seed SEED]

The exact sum is that of (-1)^j x^(2j+1) / (2j+1)! for j = 0 to 20, for the cosine of (-1)^j x^(2j) / (2j)!. Arguments
are finite and of size at most 4: COUNT random ones (1,000,000), all different, from [-4, 4], of any exponent, tiny and
subnormal, and beside the places where the rule's k changes or a result crosses zero; before these the nearest
neighbours of such places, 4 and -4, 0.0 and -0.0; last a climb, which goes on from the worst one found in each 16th
until forty rounds in a row bring nothing larger. SEED (1) makes others.

Sine and cosine come from the reference program, nothing from the port; the sums are whole numbers. A trial, no proof.
Needs the oracle (oracle/, built). Exit status 1 where a distance is not below 2^-45.
"""

import argparse
import math
import pathlib
import random
import struct
import subprocess
import sys
from fractions import Fraction

ORACLE = pathlib.Path(__file__).resolve().parents[2] / "oracle" / "target" / "release" / "oracle"
NAMES = ["sin", "cos"]
LAST = 20  # the last j
BOUND = Fraction(1, 2**45)
UNIT = Fraction(1, 2**53)
SIGN = 1 << 63
NORMAL = 1 << 52  # the smallest normal number
INFINITE = 0x7FF0000000000000
BATCH = 100_000
QUIET = 40  # rounds without a larger distance that end the climb

# Distances are compared as whole numbers of units of 2^-256, and each is less than 128 units, or 2^-249, from the exact
# one. The sum is 1 - (y / d1) (1 - (y / d2) (1 - ..)), for the sine times x, with y = x^2 <= 16, d = 2j (2j + 1) and for
# the cosine (2j - 1) 2j. A step takes the whole part once, which is less than 1 unit off; y is less than 1 unit off, and
# what it is multiplied with has size below cosh 4 < 28. So an error of E units before a step is below (16 E + 28) / d + 1
# after it. From E = 0 at j = 20 this gives E < 17.1 for the sine and E < 73.4 for the cosine. x <= 4, its own whole part,
# that of the product and that of the rule's result make it less than 4 * 17.1 + 3, and 73.4 + 1.
# The figures that are printed are worked again as fractions, without any error (`exact_distance`).
SCALE = 256
ONE = 1 << SCALE
DIVISORS = {"sin": [2 * j * (2 * j + 1) for j in range(LAST, 0, -1)],
            "cos": [(2 * j - 1) * 2 * j for j in range(LAST, 0, -1)]}


# ---- words and numbers

def number(word):
    return struct.unpack("<d", struct.pack("<Q", word))[0]


def word_of(x):
    return struct.unpack("<Q", struct.pack("<d", x))[0]


def whole(word):
    """m and e such that the finite number of this word is m * 2^e."""
    field, digits = (word & ~SIGN) >> 52, word & (NORMAL - 1)
    m, e = (digits, -1074) if field == 0 else (digits | NORMAL, field - 1075)
    return (-m if word & SIGN else m), e


def shifted(m, e):
    """The whole part of m * 2^e."""
    return m << e if e >= 0 else m >> -e


# ---- the exact sum

def scaled_sums(word):
    """The sums for sine and cosine, in units of 2^-SCALE."""
    m, e = whole(word)
    y = shifted(m * m, 2 * e + SCALE)
    totals = []
    for name in NAMES:
        total = ONE
        for d in DIVISORS[name]:
            total = ONE - (y * total >> SCALE) // d
        totals.append(total)
    return shifted(m, e + SCALE) * totals[0] >> SCALE, totals[1]


def exact_distance(name, word, result):
    x, first = Fraction(number(word)), 1 if name == "sin" else 0
    terms = ((-1) ** j * x ** (2 * j + first) / math.factorial(2 * j + first) for j in range(LAST + 1))
    return abs(Fraction(number(result)) - sum(terms))


# ---- the rule

def rule(name, words):
    """The result words of the reference program."""
    lines = "".join("%016x\n" % word for word in words)
    told = subprocess.run([ORACLE, "call", name], input=lines, stdout=subprocess.PIPE, text=True, check=True)
    results = [int(line, 16) for line in told.stdout.splitlines()]
    assert len(results) == len(words)
    for word, result in zip(words, results):
        if result & ~SIGN >= INFINITE:
            sys.exit("%s of %016x is not finite" % (name, word))
    return results


# ---- arguments

QUARTER = word_of(math.pi / 2)  # FRAC_PI_2
# zeros of a result, places where k changes, and borders of size
PLACES = [QUARTER, word_of(math.pi), word_of(math.pi / 4), word_of(3 * math.pi / 4), word_of(5 * math.pi / 4),
          word_of(4.0), word_of(2.0), word_of(1.0), NORMAL]


def allowed(word):
    return word & ~SIGN <= word_of(4.0)


def neighbours():
    near = [place + step for place in PLACES for step in range(-1000, 1001)] + list(range(1000))
    return [word | sign for word in near for sign in (0, SIGN) if allowed(word)]


def beside(rng, word):
    """A word within 2^0 to 2^46 steps, on either side."""
    return max(word + rng.choice((-1, 1)) * rng.randrange(1 << rng.randrange(47)), 0)


def random_word(rng):
    """A random argument; half of them are even over [-4, 4]."""
    kind, sign = rng.randrange(16), rng.randrange(2) * SIGN
    if kind < 8:
        return word_of(rng.uniform(-4.0, 4.0))
    if kind < 11:  # exponents from 2^-60
        return sign | rng.randrange(1023 - 60, 1025) << 52 | rng.randrange(NORMAL)
    if kind < 12:  # any exponent
        return sign | rng.randrange(1025) << 52 | rng.randrange(NORMAL)
    if kind < 13:  # subnormal
        return sign | rng.randrange(NORMAL)
    return sign | beside(rng, rng.choice(PLACES))


# ---- the worst ones

class Worst:
    """The largest distances seen: for each function and each 16th of [-4, 4] one, as (units, argument, result)."""

    def __init__(self):
        self.found, self.seen = {}, set()

    def take(self, words):
        """Works out those of the words that are new."""
        words = sorted({word for word in words if allowed(word)} - self.seen)
        self.seen.update(words)
        results = [rule(name, words) for name in NAMES]
        for word, *pair in zip(words, *results):
            zone = math.floor(16.0 * number(word))
            for name, total, result in zip(NAMES, scaled_sums(word), pair):
                m, e = whole(result)
                distance = abs(shifted(m, e + SCALE) - total)
                if distance > self.found.get((name, zone), (-1,))[0]:
                    self.found[name, zone] = distance, word, result

    def largest(self, name):
        return max(entry for (of, _), entry in self.found.items() if of == name)


def take_random(worst, count, rng):
    """Takes random words until count of them were new."""
    wanted = len(worst.seen) + count
    while len(worst.seen) < wanted:
        worst.take([random_word(rng) for _ in range(min(BATCH, wanted - len(worst.seen)))])


def climb(worst, rng):
    """Rounds of words beside the worst ones: 20 beside each, 2,000 beside the largest."""
    quiet = 0
    while quiet < QUIET:
        before = [worst.largest(name) for name in NAMES]
        words = [beside(rng, word) for _, word, _ in worst.found.values() for _ in range(20)]
        words += [beside(rng, word) for _, word, _ in before for _ in range(2000)]
        worst.take(words)
        quiet = quiet + 1 if before == [worst.largest(name) for name in NAMES] else 0


def report(name, worst):
    """Prints the largest distance; whether it is below the bound."""
    units, word, result = worst.largest(name)
    distance = exact_distance(name, word, result)
    assert abs(distance - Fraction(units, ONE)) < Fraction(128, ONE)
    below = distance < BOUND
    print("%s: 2^%.4f = %.6f * 2^-53 at %016x (%r), result %016x; %s 2^-45"
          % (name, math.log2(distance / UNIT) - 53, distance / UNIT, word, number(word), result,
             "below" if below else "NOT below"))
    return below


def main():
    parser = argparse.ArgumentParser(description=__doc__, formatter_class=argparse.RawDescriptionHelpFormatter)
    parser.add_argument("--count", type=int, default=1_000_000)
    parser.add_argument("--seed", type=int, default=1)
    options = parser.parse_args()
    if not ORACLE.exists():
        sys.exit("the oracle is not built: cargo build --release --offline in oracle/")
    worst, rng = Worst(), random.Random(options.seed)
    worst.take(neighbours())
    near = len(worst.seen)
    take_random(worst, options.count, rng)
    chosen = len(worst.seen)
    climb(worst, rng)
    print("%d arguments, all different: %d beside places, %d random, %d in the climb"
          % (len(worst.seen), near, chosen - near, len(worst.seen) - chosen))
    return 0 if all([report(name, worst) for name in NAMES]) else 1


if __name__ == "__main__":
    sys.exit(main())
