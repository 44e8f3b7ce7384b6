"""Chooses the run requests of docs/CASES.md: every check, several faults at once, the edges of the arithmetic, and random networks."""

from dataclasses import replace
from itertools import combinations

import cordic
import network
from choose_passes import LEAST, MOST, ONE, Case
from network import LAYER, SAMPLE, ConverterWord, Layer, Record, SampleRecord

TANH_REACH = cordic.total("hyperbolic") + 1
RANKED = (3, 4, 8, 2, 1, 5)
WORKED_PLAN = bytes.fromhex("0100000100000001 0200000000000000 0300000008000000")


# --- requests -----------------------------------------------------------------------------------------------------------------------


def running(label, expected, plan, samples, places):
    """A run request; the plan is bytes, records or layers."""
    if not isinstance(plan, bytes):
        plan = b"".join(part.encode() for part in plan) if isinstance(plan[0], Record) else network.encode_plan(plan)
    if any(isinstance(sample, SampleRecord) for sample in samples):
        kind, numbers = "records", [number for sample in samples for number in (sample.status, sample.value)]
    else:
        kind, numbers = "converter", [sample.v for sample in samples]
    return Case(label, expected, " ".join(map(str, ("run", kind, places, plan.hex() or "-", *numbers))))


def converters(*words):
    return [ConverterWord(word) for word in words]


def records(*values):
    return [SampleRecord(0, 0, value) for value in values]


def one_neuron(bias, weights, tanh=False):
    return [Layer(tanh, 1, len(weights), [bias], [list(weights)])]


def random_layer(random, neurons, inputs, tanh):
    """Weights and biases that mostly keep a net within the reach of tanh."""
    most, bias = ONE // inputs, ONE // 12
    weights = [[random.randint(-most, most) for _ in range(inputs)] for _ in range(neurons)]
    return Layer(tanh, neurons, inputs, [random.randint(-bias, bias) for _ in range(neurons)], weights)


def random_layers(random, count, widest):
    widths = [random.randint(1, widest) for _ in range(count + 1)]
    return [random_layer(random, n, i, random.random() < 0.5) for i, n in zip(widths, widths[1:])]


def random_samples(random, count, most=ONE):
    if random.random() < 0.5:
        return converters(*(random.randint(-32767, 32766) for _ in range(count)))
    return records(*(random.randint(-most, most) for _ in range(count)))


# --- accepted -----------------------------------------------------------------------------------------------------------------------


def worked():
    """The runs that docs/PLANS.md, docs/NETWORK.md and docs/PROGRAM.md show."""
    yield running("worked", 0, WORKED_PLAN, records(ONE), 1)
    yield running("worked", 0, WORKED_PLAN, converters(16384), 1)
    yield running("worked", 1, WORKED_PLAN, [SampleRecord(2, 0, ONE)], 1)
    yield running("worked", 2, WORKED_PLAN, [], 1)
    yield running("worked", 5, one_neuron(0, [ONE + 1]), records(ONE), 1)
    yield running("worked", 5, one_neuron(0, [ONE // 2, ONE + 1]), records(ONE, ONE), 1)
    yield running("worked", 0, one_neuron(ONE // 2, [0], tanh=True), records(0), 1)


def accepted(random, each):
    for count in range(1, network.MOST_LAYERS + 1):
        for _ in range(each):
            layers = random_layers(random, count, 4 if count > 1 else 6)
            more = random.choice((0, 0, 1, 3))
            label = f"layers {count}, {'more' if more else 'enough'} places"
            yield running(label, None, layers, random_samples(random, layers[0].inputs), layers[-1].neurons + more)


def wide(random):
    for neurons, inputs, tanh in ((64, 64, True), (1, 64, False), (64, 1, True)):
        layers = [random_layer(random, neurons, inputs, tanh)]
        yield running(f"{neurons} x {inputs}", None, layers, random_samples(random, inputs), neurons)


def sample_words():
    for v in (-32767, 32766, -1, 0, 1):
        yield running("converter word", 0, one_neuron(0, [ONE]), converters(v), 1)
    for value in (LEAST, MOST, -1, 0, 1, ONE, -ONE):
        yield running("record word", 0, one_neuron(0, [ONE // 4]), records(value), 1)


# --- arithmetic ---------------------------------------------------------------------------------------------------------------------


def edges():
    for side in (1, -1):
        for over, expected in ((0, 0), (1, 5)):
            words = "last accepted" if expected == 0 else "first refused"
            yield running(f"weight {words}", expected, one_neuron(7, [side * (ONE + over)]), records(ONE // 3), 2)
            net = side * (TANH_REACH + over)
            yield running(f"tanh {words}", expected, one_neuron(net, [ONE], tanh=True), converters(0), 1)
            second = [Layer(False, 1, 1, [0], [[5]]), Layer(True, 2, 1, [0, net], [[0], [ONE]])]
            yield running(f"tanh {words}, later", None, second, records(0), 2)
        yield running("weight far out", 5, one_neuron(0, [0, LEAST if side < 0 else MOST]), records(1, 1), 1)
        yield running("tanh far out", 5, one_neuron(LEAST if side < 0 else MOST, [0], tanh=True), records(0), 1)


def out_of_reach(random, count):
    """Random networks with one weight above 1.0, or one net above the reach of tanh."""
    for at in range(count):
        layers = random_layers(random, random.randint(1, 4), 4)
        chosen = random.choice(layers)
        neuron = random.randrange(chosen.neurons)
        side = random.choice((1, -1))
        if at % 2 == 0:
            chosen.weights[neuron][random.randrange(chosen.inputs)] = side * random.randint(ONE + 1, MOST)
            label = "random weight out of reach"
        else:
            chosen.tanh = True
            chosen.biases[neuron] = side * random.randint(ONE + ONE // 8, 4 * ONE)
            label = "random net out of reach"
        yield running(label, None, layers, random_samples(random, layers[0].inputs), layers[-1].neurons)


def overflowing(random, count):
    """Random identity networks with one bias near an end of the word, so that a product soon leaves it."""
    for _ in range(count):
        layers = random_layers(random, random.randint(1, 3), 4)
        for layer in layers:
            layer.tanh = False
        chosen = random.choice(layers)
        end = random.choice((LEAST, MOST))
        chosen.biases[random.randrange(chosen.neurons)] = end - cordic.sign(end) * random.randrange(2 ** random.randint(1, 28))
        yield running("random bias near an end", None, layers, random_samples(random, layers[0].inputs), layers[-1].neurons)


def large_inputs(random, count):
    for _ in range(count):
        inputs = random.randint(1, 5)
        weights = [random.randint(-ONE, ONE) for _ in range(inputs)]
        layers = one_neuron(random.randint(LEAST, MOST), weights)
        yield running("random large inputs", None, layers, records(*(random.randint(LEAST, MOST) for _ in range(inputs))), 1)


# --- plans --------------------------------------------------------------------------------------------------------------------------


def base_layers():
    second = Layer(False, 1, 2, [-3], [[ONE // 2, -ONE]])
    return [Layer(True, 2, 2, [1000, -1000], [[ONE // 4, -ONE // 4], [ONE // 8, 12345]]), second]


def base_records():
    return [record for layer in base_layers() for record in layer.records()]


def lengths():
    base = network.encode_plan(base_layers())
    long = [zero_layer(64, 64), zero_layer(62, 64)]
    full = network.encode_plan(long)[: network.LONGEST]
    yield running("3 empty", 3, b"", converters(1, 2), 1)
    for cut in (1, 7, 9, 15, len(base) - 1, len(base) - 7):
        yield running("3 no multiple of 8", 3, base[:cut], converters(1, 2), 1)
    yield running("3 no multiple of 8", 3, base + b"\x01", converters(1, 2), 1)
    yield running("3 too long", 3, full + bytes(8), converters(1, 2), 1)
    yield running("longest length, its last record missing", 4, full, converters(1, 2), 1)


def zero_layer(neurons, inputs):
    return Layer(False, neurons, inputs, [0] * neurons, [[0] * inputs for _ in range(neurons)])


def other_record(record):
    """Changes of one field that no plan allows at the record's place in the base plan, each with a label."""
    for kind in (0, record.kind % 3 + 1, SAMPLE, 255):
        yield "kind", replace(record, kind=kind)
    yield "flag", replace(record, flag=2 if record.kind == LAYER else 1)
    yield "flag", replace(record, flag=255)
    if record.kind != LAYER:
        yield "index", replace(record, index=record.index + 1)
        yield "index", replace(record, index=record.index ^ 0x100)
        return
    for neurons in (0, 65, 256 + 1, 65535):
        yield "neurons", replace(record, index=neurons)
    for inputs in (0, 65, -1, 256 + 2, LEAST):
        yield "inputs", replace(record, value=inputs)


def bad_records():
    base = base_records()
    for at, record in enumerate(base):
        for what, other in other_record(record):
            yield running(f"4 {what}", 4, [*base[:at], other, *base[at + 1 :]], converters(1, 2), 1)
    for inputs in (1, 3):
        yield running("4 inputs out of line", 4, [*base[:7], replace(base[7], value=inputs), *base[8:]], converters(1, 2), 1)
    for neurons in (1, 3):
        yield running("4 neurons out of line", 4, [replace(base[0], index=neurons), *base[1:]], converters(1, 2), 1)
    yield running("4 swapped", 4, [base[0], base[2], base[1], *base[3:]], converters(1, 2), 1)


def ends():
    base = base_records()
    for count in range(1, len(base)):
        yield running("first layer alone" if count == 7 else "4 early end", 0 if count == 7 else 4, base[:count], converters(1, 2), 2)
    for extra in (base[8], base[10], Record(SAMPLE, 0, 0, ONE), Record(0, 0, 0, 0), Record(255, 255, 65535, -1)):
        yield running("4 trailing record", 4, [*base, extra], converters(1, 2), 1)
    four = [record for _ in range(4) for record in one_neuron(5, [ONE])[0].records()]
    yield running("four layers", 0, four, converters(3), 1)
    for fifth in (four[:3], four[:1], [replace(four[0], flag=2)], [replace(four[0], value=2)]):
        yield running("4 fifth layer", 4, [*four, *fifth], converters(3), 1)
    yield running("4 trailing record", 4, [*four, four[2]], converters(3), 1)
    yield running("4 early end", 4, [*four[:9], four[9]], converters(3), 1)


# --- places and samples -------------------------------------------------------------------------------------------------------------


def places(random):
    for neurons in (1, 2, 3, 8):
        layers = [random_layer(random, neurons, 2, False)]
        for lent in (0, neurons - 1, neurons, neurons + 1, 20):
            yield running("8" if lent < neurons else "places", 8 if lent < neurons else 0, layers, converters(9, -9), lent)
    yield running("places", 0, base_layers(), converters(9, -9), 64)
    narrow = [random_layer(random, 5, 1, False), random_layer(random, 2, 5, False)]
    yield running("places", 0, narrow, converters(9), 2)
    yield running("8", 8, narrow, converters(9), 1)


def sample_counts(random):
    for inputs in (1, 2, 5):
        layers = [random_layer(random, 2, inputs, False)]
        for given in sorted({0, inputs - 1, inputs + 1, 64, 65}):
            words = [random.randint(-100, 100) for _ in range(given)]
            label = "2 too few" if given < inputs else "2 too many"
            yield running(label, 2, layers, records(*words) if given % 2 else converters(*words), 2)


def no_samples(random):
    layers = [random_layer(random, 2, 4, True)]
    for at in range(4):
        for v in (-32768, 32767):
            words = [random.randint(-32767, 32766) for _ in range(4)]
            words[at] = v
            yield running(f"1 converter, {'first' if at == 0 else 'later'}", 1, layers, converters(*words), 2)
        for status in (1, 2, 3, 4, 255):
            samples = records(*(random.randint(-ONE, ONE) for _ in range(4)))
            samples[at] = replace(samples[at], status=status)
            yield running(f"1 record, {'first' if at == 0 else 'later'}", 1, layers, samples, 2)
    yield running("1 twice", 1, layers, converters(0, 32767, -32768, 0), 2)
    yield running("1 twice", 1, layers, [SampleRecord(0, 0, 1), SampleRecord(0, 0, 1), SampleRecord(3, 0, 1), SampleRecord(1, 0, 1)], 2)


def several_faults():
    """Every choice of two or more of six faults in one run, and weight and bias faults in both orders."""
    for count in range(2, len(RANKED) + 1):
        for chosen in combinations(RANKED, count):
            yield running("several faults", chosen[0], *faulty(chosen))
    for first, second in ((7, 5), (5, 7)):
        layers = [Layer(False, 2, 1, [0, 0], [[ONE], [ONE]])]
        layers[0].biases[0 if first == 7 else 1] = MOST
        layers[0].weights[1 if first == 7 else 0] = [ONE + 1]
        yield running("5 and 7", first, layers, records(ONE), 2)


def faulty(chosen):
    """Plan, samples and places with the chosen faults in them."""
    made = base_records()
    if 5 in chosen:
        made[2] = replace(made[2], value=MOST)
    if 4 in chosen:
        made[9] = replace(made[9], flag=1)
    plan = b"".join(record.encode() for record in made)
    words = [5, 32767] if 1 in chosen else [5, 6]
    return plan[:-1] if 3 in chosen else plan, converters(*words, *([7] if 2 in chosen else [])), 0 if 8 in chosen else 1


def choose(random):
    yield from worked()
    yield from accepted(random, 28)
    yield from wide(random)
    yield from sample_words()
    yield from edges()
    yield from out_of_reach(random, 30)
    yield from overflowing(random, 30)
    yield from large_inputs(random, 15)
    yield from lengths()
    yield from bad_records()
    yield from ends()
    yield from places(random)
    yield from sample_counts(random)
    yield from no_samples(random)
    yield from several_faults()
