//! The network run in plain Rust, on the same stages as in plain C: the same recurrence and the same checks.

const WIDEST: usize = 64;
const MOST_LAYERS: usize = 4;
const LONGEST: usize = 65528;
const RECORD: usize = 8;
const ONE: i32 = 1 << 28;

#[repr(C)]
pub struct Sample {
    status: u8,
    value: i32,
}

/// As `struct plain_report` in `plain.h`.
#[repr(C)]
pub struct Report {
    number: u32,
    layer: i32,
    neuron: i32,
    input: i32,
    record: i32,
    system: i32,
    mode: i32,
    step: i32,
    reg: i32,
    kept_x: i32,
    kept_y: i32,
    kept_z: i32,
    unit_steps: u32,
    neuron_steps: u32,
    steps: u32,
    outputs: u32,
}

#[derive(Clone, Copy, PartialEq)]
enum Kind {
    Linear,
    #[allow(dead_code)]
    Circular,
    Hyperbolic,
}

#[derive(Clone, Copy, PartialEq)]
enum Mode {
    Rotation,
    Vectoring,
}

#[derive(Clone, Copy, PartialEq)]
enum Direction {
    Plus,
    Minus,
}

#[derive(Clone, Copy)]
enum Register {
    X,
    Y,
    Z,
}

#[derive(Clone, Copy)]
struct Triple {
    x: i32,
    y: i32,
    z: i32,
}

#[derive(Clone, Copy)]
struct Iteration {
    shift: u32,
    entry: i32,
}

struct System {
    kind: Kind,
    order: &'static [Iteration],
    total: i64,
}

const fn at(shift: u32, entry: i32) -> Iteration {
    Iteration { shift, entry }
}

#[rustfmt::skip]
static LINEAR: System = System {
    kind: Kind::Linear,
    order: &[
        at(1, 134217728), at(2, 67108864), at(3, 33554432), at(4, 16777216), at(5, 8388608), at(6, 4194304), at(7, 2097152),
        at(8, 1048576), at(9, 524288), at(10, 262144), at(11, 131072), at(12, 65536), at(13, 32768), at(14, 16384),
        at(15, 8192), at(16, 4096), at(17, 2048), at(18, 1024), at(19, 512), at(20, 256), at(21, 128),
        at(22, 64), at(23, 32), at(24, 16), at(25, 8), at(26, 4), at(27, 2), at(28, 1),
    ],
    total: 268435455,
};

#[rustfmt::skip]
static HYPERBOLIC: System = System {
    kind: Kind::Hyperbolic,
    order: &[
        at(1, 147453245), at(2, 68561855), at(3, 33730852), at(4, 16799113), at(4, 16799113), at(5, 8391340), at(6, 4194645),
        at(7, 2097195), at(8, 1048581), at(9, 524289), at(10, 262144), at(11, 131072), at(12, 65536), at(13, 32768),
        at(13, 32768), at(14, 16384), at(15, 8192), at(16, 4096), at(17, 2048), at(18, 1024), at(19, 512), at(20, 256),
        at(21, 128), at(22, 64), at(23, 32), at(24, 16), at(25, 8), at(26, 4), at(27, 2), at(28, 1),
    ],
    total: 300157283,
};

trait Stage {
    /// The triple after one step, or the first register that would leave the word.
    fn step(t: Triple, kind: Kind, d: Direction, iteration: Iteration) -> Result<Triple, Register>;
}

/// Checked word arithmetic.
struct Parallel;

/// 64-bit arithmetic, and a look at the range after it.
struct Wide;

/// 32 one-bit additions with a saved carry for each register.
struct BitSerial;

fn opposite(d: Direction) -> Direction {
    match d {
        Direction::Plus => Direction::Minus,
        Direction::Minus => Direction::Plus,
    }
}

/// a + b or a - b, where it is a word.
fn combine(a: i32, b: i32, d: Direction) -> Option<i32> {
    match d {
        Direction::Plus => a.checked_add(b),
        Direction::Minus => a.checked_sub(b),
    }
}

/// a + b or a - b, bit by bit, b shifted with its sign, where it is a word.
fn combine_serially(a: i32, b: i32, shift: u32, d: Direction) -> Option<i32> {
    let (a, b, sign) = (a as u32, b as u32, b as u32 >> 31);
    let flip = (d == Direction::Minus) as u32;
    let (mut word, mut into, mut carry) = (0, 0, flip);
    for place in 0..32 {
        let p = a >> place & 1;
        let q = if place + shift <= 31 { b >> (place + shift) & 1 } else { sign } ^ flip;
        into = carry;
        word |= (p ^ q ^ carry) << place;
        carry = (p & q) | (p & carry) | (q & carry);
    }
    (into == carry).then_some(word as i32)
}

/// a + b or a - b, by way of 64 bits, where it is a word.
fn combine_widely(a: i32, b: i32, d: Direction) -> Option<i32> {
    let sign = match d {
        Direction::Plus => 1,
        Direction::Minus => -1,
    };
    i32::try_from(i64::from(a) + sign * i64::from(b)).ok()
}

/// One step by some way to add or subtract, which shifts the second number before.
fn step_by(
    combine: impl Fn(i32, i32, u32, Direction) -> Option<i32>,
    t: Triple,
    kind: Kind,
    d: Direction,
    i: Iteration,
) -> Result<Triple, Register> {
    let x = match kind {
        Kind::Linear => Some(t.x),
        Kind::Circular => combine(t.x, t.y, i.shift, opposite(d)),
        Kind::Hyperbolic => combine(t.x, t.y, i.shift, d),
    };
    let x = x.ok_or(Register::X)?;
    let y = combine(t.y, t.x, i.shift, d).ok_or(Register::Y)?;
    let z = combine(t.z, i.entry, 0, opposite(d)).ok_or(Register::Z)?;
    Ok(Triple { x, y, z })
}

impl Stage for Parallel {
    fn step(t: Triple, kind: Kind, d: Direction, i: Iteration) -> Result<Triple, Register> {
        step_by(|a, b, shift, d| combine(a, b >> shift, d), t, kind, d, i)
    }
}

impl Stage for Wide {
    fn step(t: Triple, kind: Kind, d: Direction, i: Iteration) -> Result<Triple, Register> {
        step_by(|a, b, shift, d| combine_widely(a, b >> shift, d), t, kind, d, i)
    }
}

impl Stage for BitSerial {
    fn step(t: Triple, kind: Kind, d: Direction, i: Iteration) -> Result<Triple, Register> {
        step_by(combine_serially, t, kind, d, i)
    }
}

struct Overflow {
    step: u32,
    register: Register,
    kept: Triple,
}

struct UnitFault {
    number: u32,
    kind: Kind,
    mode: Mode,
    overflow: Option<Overflow>,
    steps: u32,
}

struct NeuronFault {
    input: Option<usize>,
    steps: u32,
    unit: UnitFault,
}

enum Refusal {
    Sample(usize),
    Count,
    Length,
    Record(usize),
    Places,
    Arithmetic { layer: usize, neuron: usize, steps: u32, fault: NeuronFault },
}

fn direction(mode: Mode, t: Triple) -> Direction {
    let minus = match mode {
        Mode::Rotation => t.z < 0,
        Mode::Vectoring => (t.x < 0) == (t.y < 0),
    };
    if minus {
        Direction::Minus
    } else {
        Direction::Plus
    }
}

fn size(v: i32) -> i64 {
    i64::from(v).abs()
}

/// The number by which this load is refused.
fn refused_load(system: &System, mode: Mode, t: Triple) -> Option<u32> {
    if mode == Mode::Rotation {
        return (size(t.z) > system.total + 1).then_some(5);
    }
    let beyond = match system.kind {
        _ if t.x < 1 << 24 => true,
        Kind::Linear => size(t.y) > i64::from(t.x >> 28) + 27 + system.order.iter().map(|i| i64::from(t.x >> i.shift)).sum::<i64>(),
        Kind::Circular => false,
        Kind::Hyperbolic => 5 * size(t.y) > 4 * i64::from(t.x),
    };
    beyond.then_some(6)
}

/// One pass of the unit.
fn pass<S: Stage>(system: &System, mode: Mode, start: Triple) -> Result<Triple, UnitFault> {
    if let Some(number) = refused_load(system, mode, start) {
        return Err(UnitFault { number, kind: system.kind, mode, overflow: None, steps: 0 });
    }
    let mut t = start;
    for (steps, iteration) in (0..).zip(system.order) {
        t = S::step(t, system.kind, direction(mode, t), *iteration).map_err(|register| UnitFault {
            number: 7,
            kind: system.kind,
            mode,
            overflow: Some(Overflow { step: steps + 1, register, kept: t }),
            steps,
        })?;
    }
    Ok(t)
}

type Bytes = [u8; RECORD];

struct Record {
    kind: u8,
    flag: u8,
    index: usize,
    value: i32,
}

impl Record {
    fn read(&[kind, flag, high, low, a, b, c, d]: &Bytes) -> Record {
        Record { kind, flag, index: u16::from_be_bytes([high, low]).into(), value: i32::from_be_bytes([a, b, c, d]) }
    }

    /// The inputs and the neurons, where this is a layer record.
    fn layer(&self) -> Option<(usize, usize)> {
        let inputs = usize::try_from(self.value).ok()?;
        let sizes = 1..=WIDEST;
        (self.kind == 1 && self.flag <= 1 && sizes.contains(&self.index) && sizes.contains(&inputs)).then_some((inputs, self.index))
    }

    fn is(&self, kind: u8, index: usize) -> bool {
        self.kind == kind && self.flag == 0 && self.index == index
    }
}

/// The inputs and outputs of a plan, or the position of its first record that is bad or missing.
fn judge(records: &[Bytes]) -> Result<(usize, usize), usize> {
    let mut shape = None;
    let mut position = 0;
    for layer in 0.. {
        let Some(head) = records.get(position) else { break };
        let (inputs, neurons) = Record::read(head).layer().filter(|_| layer < MOST_LAYERS).ok_or(position)?;
        let first = match shape {
            None => inputs,
            Some((first, outputs)) if outputs == inputs => first,
            Some(_) => return Err(position),
        };
        shape = Some((first, neurons));
        position += 1;
        for neuron in 0..neurons {
            for place in 0..=inputs {
                let (kind, index) = if place == 0 { (2, neuron) } else { (3, place - 1) };
                records.get(position).filter(|r| Record::read(r).is(kind, index)).ok_or(position)?;
                position += 1;
            }
        }
    }
    shape.ok_or(0)
}

/// The tanh of a net, and its steps, or those before the fault's pass with the fault.
fn tanh<S: Stage>(net: i32) -> Result<(i32, u32), (u32, UnitFault)> {
    let turned = pass::<S>(&HYPERBOLIC, Mode::Rotation, Triple { x: ONE, y: 0, z: net }).map_err(|unit| (0, unit))?;
    let steps = HYPERBOLIC.order.len() as u32;
    let divided = pass::<S>(&LINEAR, Mode::Vectoring, Triple { z: 0, ..turned }).map_err(|unit| (steps, unit))?;
    Ok((divided.z, steps + LINEAR.order.len() as u32))
}

/// The output of one neuron, and its steps.
fn neuron<S: Stage>(bias: &Bytes, weights: &[Bytes], inputs: &[i32], squashed: bool) -> Result<(i32, u32), NeuronFault> {
    let mut y = Record::read(bias).value;
    let mut steps = 0;
    for (i, (&x, weight)) in inputs.iter().zip(weights).enumerate() {
        let start = Triple { x, y, z: Record::read(weight).value };
        let end = pass::<S>(&LINEAR, Mode::Rotation, start).map_err(|unit| NeuronFault { input: Some(i), steps, unit })?;
        y = end.y;
        steps += LINEAR.order.len() as u32;
    }
    if !squashed {
        return Ok((y, steps));
    }
    let (answer, more) = tanh::<S>(y).map_err(|(before, unit)| NeuronFault { input: None, steps: steps + before, unit })?;
    Ok((answer, steps + more))
}

/// A run: the number of outputs, and the steps.
fn run<S: Stage>(plan: &[u8], samples: &[Sample], out: &mut [i32]) -> Result<(usize, u32), Refusal> {
    let (records, []) = plan.as_chunks() else { return Err(Refusal::Length) };
    if records.is_empty() || plan.len() > LONGEST {
        return Err(Refusal::Length);
    }
    let (inputs, outputs) = judge(records).map_err(Refusal::Record)?;
    let out = out.get_mut(..outputs).ok_or(Refusal::Places)?;
    if samples.len() != inputs {
        return Err(Refusal::Count);
    }
    let mut values = [0; WIDEST];
    for (i, sample) in samples.iter().enumerate() {
        if sample.status != 0 {
            return Err(Refusal::Sample(i));
        }
        values[i] = sample.value;
    }
    let steps = layers::<S>(records, &mut values)?;
    out.copy_from_slice(&values[..outputs]);
    Ok((outputs, steps))
}

/// All layers of a plan that was judged: `values` holds the inputs, and after it the outputs. The steps.
fn layers<S: Stage>(mut records: &[Bytes], values: &mut [i32; WIDEST]) -> Result<u32, Refusal> {
    let mut steps = 0;
    let mut layer = 0;
    while let Some((head, rest)) = records.split_first() {
        let Record { flag, index: neurons, value, .. } = Record::read(head);
        let inputs = value as usize;
        let (body, after) = rest.split_at(neurons * (inputs + 1));
        let mut next = [0; WIDEST];
        for (j, group) in body.chunks_exact(inputs + 1).enumerate() {
            let (bias, weights) = group.split_first().expect("a neuron has a bias");
            let (output, more) = neuron::<S>(bias, weights, &values[..inputs], flag == 1).map_err(|fault| Refusal::Arithmetic {
                layer,
                neuron: j,
                steps,
                fault,
            })?;
            next[j] = output;
            steps += more;
        }
        *values = next;
        records = after;
        layer += 1;
    }
    Ok(steps)
}

const NOTHING: Report = Report {
    number: 0,
    layer: -1,
    neuron: -1,
    input: -1,
    record: -1,
    system: -1,
    mode: -1,
    step: -1,
    reg: -1,
    kept_x: 0,
    kept_y: 0,
    kept_z: 0,
    unit_steps: 0,
    neuron_steps: 0,
    steps: 0,
    outputs: 0,
};

fn arithmetic(layer: usize, neuron: usize, steps: u32, fault: NeuronFault) -> Report {
    let NeuronFault { input, steps: before, unit } = fault;
    let report = Report {
        number: unit.number,
        layer: layer as i32,
        neuron: neuron as i32,
        input: input.map_or(-1, |i| i as i32),
        system: unit.kind as i32,
        mode: unit.mode as i32,
        unit_steps: unit.steps,
        neuron_steps: before + unit.steps,
        steps: steps + before + unit.steps,
        ..NOTHING
    };
    match unit.overflow {
        None => report,
        Some(Overflow { step, register, kept: Triple { x, y, z } }) => {
            Report { step: step as i32, reg: register as i32, kept_x: x, kept_y: y, kept_z: z, ..report }
        }
    }
}

fn reported(outcome: Result<(usize, u32), Refusal>) -> Report {
    match outcome {
        Ok((outputs, steps)) => Report { outputs: outputs as u32, steps, ..NOTHING },
        Err(Refusal::Sample(i)) => Report { number: 1, input: i as i32, ..NOTHING },
        Err(Refusal::Count) => Report { number: 2, ..NOTHING },
        Err(Refusal::Length) => Report { number: 3, ..NOTHING },
        Err(Refusal::Record(position)) => Report { number: 4, record: position as i32, ..NOTHING },
        Err(Refusal::Places) => Report { number: 8, ..NOTHING },
        Err(Refusal::Arithmetic { layer, neuron, steps, fault }) => arithmetic(layer, neuron, steps, fault),
    }
}

/// The run from C, as `plain_runner` in `plain.h`.
///
/// # Safety
/// Each pointer is to as many items as the count beside it says, and `report` to one report.
unsafe fn run_from_c<S: Stage>(
    (plan, len): (*const u8, usize),
    (samples, count): (*const Sample, usize),
    (out, places): (*mut i32, usize),
    report: *mut Report,
) {
    let plan = std::slice::from_raw_parts(plan, len);
    let samples = std::slice::from_raw_parts(samples, count);
    let out = std::slice::from_raw_parts_mut(out, places);
    report.write(reported(run::<S>(plan, samples, out)));
}

/// # Safety
/// As of `run_from_c`.
#[no_mangle]
pub unsafe extern "C" fn plain_rust_run(
    plan: *const u8,
    len: usize,
    samples: *const Sample,
    count: usize,
    out: *mut i32,
    places: usize,
    report: *mut Report,
) {
    run_from_c::<Parallel>((plan, len), (samples, count), (out, places), report);
}

/// # Safety
/// As of `run_from_c`.
#[no_mangle]
pub unsafe extern "C" fn plain_rust_run_wide(
    plan: *const u8,
    len: usize,
    samples: *const Sample,
    count: usize,
    out: *mut i32,
    places: usize,
    report: *mut Report,
) {
    run_from_c::<Wide>((plan, len), (samples, count), (out, places), report);
}

/// # Safety
/// As of `run_from_c`.
#[no_mangle]
pub unsafe extern "C" fn plain_rust_run_serial(
    plan: *const u8,
    len: usize,
    samples: *const Sample,
    count: usize,
    out: *mut i32,
    places: usize,
    report: *mut Report,
) {
    run_from_c::<BitSerial>((plan, len), (samples, count), (out, places), report);
}
