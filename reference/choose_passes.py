"""Chooses the pass requests of docs/CASES.md: edges of every refusal, extreme triples, and random ones."""

from dataclasses import dataclass

import cordic

ONE = 2**28
START = cordic.LEAST_START
LEAST, MOST = cordic.LEAST, cordic.MOST
EXTREMES = (LEAST, LEAST + 1, -ONE - 1, -ONE, -START, -1, 0, 1, START - 1, START, START + 1, ONE, ONE + 1, MOST - 1, MOST)
PAIRS = [(system, mode) for system in cordic.SYSTEMS for mode in cordic.MODES]
WHERES = ("first", "middle", "last")


@dataclass(frozen=True)
class Case:
    """A request with a label to count it by, and the number it is chosen for: 0 for accepted, None for any."""

    label: str
    expected: int | None
    request: str


def passing(label, expected, system, mode, triple):
    return Case(label, expected, " ".join(map(str, ("pass", system, mode, *triple))))


def edge(accepts, inside, outside):
    """The last accepted number and the first refused one between two numbers, by halving."""
    while abs(outside - inside) > 1:
        middle = (inside + outside) // 2
        inside, outside = (middle, outside) if accepts(middle) else (inside, middle)
    return inside, outside


# --- chosen passes ------------------------------------------------------------------------------------------------------------------


def worked():
    """The passes that docs/UNIT.md and docs/TRACE.md show."""
    triples = [(ONE, 0, ONE // 2), (-1, 0, ONE), (1, 0, ONE), (-1, 0, 0), (0, 0, ONE + 1), (ONE, MOST, ONE)]
    yield from (passing("worked", None, "linear", "rotation", triple) for triple in triples)
    yield passing("worked", 0, "linear", "vectoring", (ONE, ONE // 2, 0))
    yield from (passing("worked", 6, system, "vectoring", (START - 1, 0, 0)) for system in cordic.SYSTEMS)
    yield passing("worked", 7, "circular", "rotation", (1342177280, 0, 402653184))
    yield from (passing("worked", 0, "hyperbolic", "rotation", (ONE, 0, net)) for net in (ONE // 2, 300157284, -300157284))


def reach_edges():
    for system in cordic.SYSTEMS:
        for end in (1, -1):
            for x, y in ((0, 0), (1, -1), (ONE, 0), (-ONE, ONE // 2)):
                accepted, refused = edge(lambda z: cordic.barred(system, "rotation", (x, y, z)) is None, 0, end * MOST)
                yield passing("5 last accepted", 0, system, "rotation", (x, y, accepted))
                yield passing("5 first refused", 5, system, "rotation", (x, y, refused))
        yield from (passing("5 far out", 5, system, "rotation", (3, 4, z)) for z in (LEAST, MOST))


def start_edges():
    for system in cordic.SYSTEMS:
        yield passing("6 last accepted x", 0, system, "vectoring", (START, 0, 5))
        for x in (START - 1, 1, 0, -1, -START, LEAST):
            yield passing("6 refused x", 6, system, "vectoring", (x, 0, 5))
    for system in ("linear", "hyperbolic"):
        for x in (START, START + 1, START + 2, START + 3, 2**25 - 1, ONE, ONE + 12345, 2**30 + 7, MOST // 2, MOST):
            for end in (MOST, LEAST):
                accepted, refused = edge(lambda y: cordic.barred(system, "vectoring", (x, y, 0)) is None, 0, end)
                yield passing("6 last accepted y", None, system, "vectoring", (x, accepted, 0))
                yield passing("6 first refused y", 6, system, "vectoring", (x, refused, 0))
    for y in (LEAST, -ONE, -1, 1, ONE, MOST):
        yield passing("6 not in circular", None, "circular", "vectoring", (START, y, 0))


# --- overflows ----------------------------------------------------------------------------------------------------------------------


def overflow(system, mode, start):
    """The register, the side and the part of the pass where 7 arises, or None."""
    taken, refusal = cordic.run(system, mode, start)
    if refusal is None or refusal.number != 7:
        return None
    side = cordic.sign(refusal.kept[cordic.REGISTERS.index(refusal.register)])
    last = len(cordic.order(system))
    return refusal.register, side, "first" if refusal.step == 1 else "last" if refusal.step == last else "middle"


def driven_far(random, system, mode, start):
    """The triple with the register that the pass drives to zero as far out as a load accepts, so that all steps turn one way."""
    at = 2 if mode == "rotation" else 1
    end = random.choice((LEAST, MOST))
    far, _ = edge(lambda word: cordic.barred(system, mode, replaced(start, at, word)) is None, 0, end)
    return replaced(start, at, far)


def replaced(triple, at, word):
    return (*triple[:at], word, *triple[at + 1 :])


def tried(random, system, mode):
    """Starts around the place where a register, moved towards an end of the word, makes the pass fail."""
    start = random_triple(random, system, mode, "middle")
    if system != "circular" or mode != "vectoring":
        start = random.choice((start, driven_far(random, system, mode, start)))
    if cordic.run(system, mode, start)[1] is not None:
        return
    at = random.choice((0, 1) if mode == "rotation" else (0, 2))
    end = random.choice((LEAST, MOST))
    _, refused = edge(lambda word: cordic.run(system, mode, replaced(start, at, word))[1] is None, start[at], end)
    near = [refused + cordic.sign(end) * step for step in range(6)]
    between = [random.randint(*sorted((refused, end))) for _ in range(3)]
    yield from (replaced(start, at, word) for word in (*near, *between, end) if cordic.is_word(word))


def overflows(random, each):
    """For each register, side and part of a pass, some triples whose pass is refused with 7 there."""
    wanted = {(register, side, where): each for register in cordic.REGISTERS for side in (1, -1) for where in WHERES}
    while any(wanted.values()):
        system, mode = random.choice(PAIRS)
        for start in tried(random, system, mode):
            found = overflow(system, mode, start)
            if wanted.get(found):
                wanted[found] -= 1
                yield passing("7 searched", 7, system, mode, start)


# --- extreme and random -------------------------------------------------------------------------------------------------------------


def extremes(random, each):
    for system, mode in PAIRS:
        for _ in range(each):
            yield passing("extreme", None, system, mode, tuple(random.choice(EXTREMES) for _ in range(3)))


def random_triple(random, system, mode, size):
    """Mostly one that can be loaded; one in ten keeps what was drawn."""
    most = {"small": 64, "middle": ONE, "any": MOST}[size]
    x, y, z = (random.randint(-most - 1, most) for _ in range(3))
    if random.random() < 0.1:
        return x, y, z
    if mode == "rotation":
        reach = min(most, cordic.total(system) + 1)
        return x, y, random.randint(-reach, reach)
    x = random.randint(START, START + 64 if size == "small" else most)
    if system == "circular":
        return x, y, z
    widest = min(most, 4 * x // 5 if system == "hyperbolic" else x)
    return x, random.randint(-widest, widest), z


def randoms(random, each):
    for system, mode in PAIRS:
        for size in ("small", "middle", "any"):
            for _ in range(each):
                yield passing(f"random {size}", None, system, mode, random_triple(random, system, mode, size))


def choose(random, overflow_each=5, extreme_each=40, random_each=37):
    yield from worked()
    yield from reach_edges()
    yield from start_edges()
    yield from overflows(random, overflow_each)
    yield from extremes(random, extreme_each)
    yield from randoms(random, random_each)
