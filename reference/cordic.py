"""Words, tables, stages and the unit of CORDIC in exact integers: a second implementation, written from the docs pages alone."""

from dataclasses import dataclass
from fractions import Fraction
from functools import cache

BITS = 32
LEAST, MOST = -(2 ** (BITS - 1)), 2 ** (BITS - 1) - 1
REGISTERS = ("x", "y", "z")
SYSTEMS = ("linear", "circular", "hyperbolic")
MODES = ("rotation", "vectoring")
M = {"linear": 0, "circular": 1, "hyperbolic": -1}
LAST_SHIFT = 28
TWICE = (4, 13)
TERMS = 20
LEAST_START = 2**24
MOST_COUNTED = 2**32 - 1
MOST_RECORDED = 64


# --- words --------------------------------------------------------------------------------------------------------------------------


def is_word(number):
    return LEAST <= number <= MOST


def shifted(word, shift):
    return word // 2**shift


def sign(word):
    return 1 if word >= 0 else -1


# --- tables -------------------------------------------------------------------------------------------------------------------------


def odd_powers(t, terms, alternating):
    """The first terms of t + t^3/3 + t^5/5 + .., every second one taken away if they alternate."""
    return sum((-1 if alternating and k % 2 else 1) * t ** (2 * k + 1) / (2 * k + 1) for k in range(terms))


def atan_ends(t):
    return odd_powers(t, TERMS, True), odd_powers(t, TERMS + 1, True)


def atanh_ends(t):
    low = odd_powers(t, TERMS, False)
    return low, low + 2 * t ** (2 * TERMS + 1) / (2 * TERMS + 1)


def nearest(ends):
    """The whole number e with 2e - 1 < 2^29 A < 2e + 1 for both ends A of an enclosure."""
    entry = (2**29 * ends[0] + 1) // 2
    if not all(2 * entry - 1 < 2**29 * end < 2 * entry + 1 for end in ends):
        raise ArithmeticError(f"no whole number is nearest to the whole of {ends}")
    return int(entry)


def entry_of(system, shift):
    t = Fraction(1, 2**shift)
    if system == "linear":
        return 2 ** (LAST_SHIFT - shift)
    if system == "hyperbolic":
        return nearest(atanh_ends(t))
    if shift == 0:
        return nearest([a + b for a, b in zip(atan_ends(Fraction(1, 2)), atan_ends(Fraction(1, 3)))])
    return nearest(atan_ends(t))


@cache
def order(system):
    """The iterations of a system, in order, each as its shift and its entry."""
    shifts = list(range(0 if system == "circular" else 1, LAST_SHIFT + 1))
    if system == "hyperbolic":
        shifts = sorted(shifts + list(TWICE))
    entries = {shift: entry_of(system, shift) for shift in set(shifts)}
    return tuple((shift, entries[shift]) for shift in shifts)


@cache
def total(system):
    return sum(entry for _, entry in order(system))


# --- stages -------------------------------------------------------------------------------------------------------------------------


class Parallel:
    """A stage that adds whole words."""

    ticks = 1

    def __init__(self):
        self.triple = (0, 0, 0)

    def load(self, triple):
        self.triple = triple

    def step(self, system, direction, shift, entry):
        """Makes the step and gives None, or gives the first register that would leave the word and changes nothing."""
        x, y, z = self.triple
        made = (x - M[system] * direction * shifted(y, shift), y + direction * shifted(x, shift), z - direction * entry)
        for register, number in zip(REGISTERS, made):
            if not is_word(number):
                return register
        self.triple = made
        return None

    def read(self):
        return self.triple

    def notes(self):
        return ()


def bits_of(word):
    """Two's complement, the lowest bit first."""
    return [word >> place & 1 for place in range(BITS)]


def word_of(bits):
    return sum(bit << place for place, bit in enumerate(bits)) - (bits[-1] << BITS)


def moved(bits, shift):
    """The bits as an adder meets them after a shift: the places left empty are filled with the sign."""
    return bits[shift:] + bits[-1:] * shift


def added(bits, others, subtract):
    """Adds bit by bit, or adds the complement with a first carry of 1, and says whether the sum is out of the word."""
    made = []
    flip = carry = int(subtract)
    into_top = carry
    for bit, other in zip(bits, others):
        other ^= flip
        into_top = carry
        made.append(bit ^ other ^ carry)
        carry = bit & other | carry & (bit ^ other)
    return made, into_top != carry


class BitSerial:
    """A stage that keeps each register as 32 bits and adds one bit of each in a tick."""

    ticks = BITS

    def __init__(self):
        self.load((0, 0, 0))

    def load(self, triple):
        self.bits = [bits_of(word) for word in triple]

    def step(self, system, direction, shift, entry):
        """As in Parallel, by one-bit additions."""
        x, y, z = self.bits
        turn = M[system] * direction
        sums = (
            added(x, moved(y, shift), turn > 0) if turn != 0 else (x, False),
            added(y, moved(x, shift), direction < 0),
            added(z, bits_of(entry), direction > 0),
        )
        for register, (_, out) in zip(REGISTERS, sums):
            if out:
                return register
        self.bits = [bits for bits, _ in sums]
        return None

    def read(self):
        return tuple(word_of(bits) for bits in self.bits)

    def notes(self):
        return ()


STAGES = {"parallel": Parallel, "bit-serial": BitSerial}
TICKS = {kind: stage.ticks for kind, stage in STAGES.items()}


class Probe:
    """A stage around any other: counts the accepted steps since the load and holds the triple before the latest of them."""

    def __init__(self, below):
        self.below, self.ticks = below, below.ticks
        self.accepted, self.before = 0, None

    def load(self, triple):
        self.below.load(triple)
        self.accepted, self.before = 0, None

    def step(self, *told):
        before = self.below.read()
        refused = self.below.step(*told)
        if refused is None:
            self.accepted, self.before = min(self.accepted + 1, MOST_COUNTED), before
        return refused

    def read(self):
        return self.below.read()

    def notes(self):
        return (self.accepted, int(self.before is not None), *(self.before or (0, 0, 0)), *self.below.notes())


class Recorder:
    """A stage around any other: keeps the triple after each of the first 64 accepted steps since the load."""

    def __init__(self, below):
        self.below, self.ticks = below, below.ticks
        self.triples = []

    def load(self, triple):
        self.below.load(triple)
        self.triples = []

    def step(self, *told):
        refused = self.below.step(*told)
        if refused is None and len(self.triples) < MOST_RECORDED:
            self.triples.append(self.below.read())
        return refused

    def read(self):
        return self.below.read()

    def notes(self):
        return (len(self.triples), *(word for triple in self.triples for word in triple), *self.below.notes())


# --- unit ---------------------------------------------------------------------------------------------------------------------------


@dataclass(frozen=True)
class Step:
    """An accepted step: what the stage was told, and the triple after it."""

    shift: int
    entry: int
    direction: int
    after: tuple


@dataclass(frozen=True)
class Refusal:
    """A refused pass. steps are those accepted in it; step, register and kept come with 7 alone."""

    number: int
    steps: int = 0
    step: int | None = None
    register: str | None = None
    kept: tuple | None = None


def barred(system, mode, start):
    """The number that refuses a load, or None."""
    x, y, z = start
    if mode == "rotation":
        return 5 if abs(z) > total(system) + 1 else None
    if x < LEAST_START:
        return 6
    if system == "linear" and abs(y) > sum(shifted(x, s) for s in range(1, LAST_SHIFT + 1)) + shifted(x, LAST_SHIFT) + 27:
        return 6
    if system == "hyperbolic" and 5 * abs(y) > 4 * x:
        return 6
    return None


def direction_of(mode, triple):
    x, y, z = triple
    return sign(z) if mode == "rotation" else -sign(x) * sign(y)


def run(system, mode, start, stage=None):
    """One pass over the stage, a new parallel one if none is given: the accepted steps, and the refusal or None."""
    stage = Parallel() if stage is None else stage
    number = barred(system, mode, start)
    if number is not None:
        return [], Refusal(number)
    stage.load(start)
    taken = []
    for shift, entry in order(system):
        triple = stage.read()
        direction = direction_of(mode, triple)
        register = stage.step(system, direction, shift, entry)
        if register is not None:
            return taken, Refusal(7, len(taken), len(taken) + 1, register, stage.read())
        taken.append(Step(shift, entry, direction, stage.read()))
    return taken, None
