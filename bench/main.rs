//! Compares the proved engine with plain Rust: first what both answer, then how long both take.
//!
//!     speed                     compare answers, then time both
//!     speed count KIND SIDE N   do N batches of one kind on one side, for an instruction count

mod ours;
mod plain;

use std::hint::black_box;
use std::process::ExitCode;
use std::time::Instant;

/// Labels or gates in a row, so few that they stay in the first cache.
const ROW: usize = 256;
const INPUTS: usize = 8;
const OUTPUTS: usize = 16;
const ROUNDS: usize = 500;
/// How long one measurement lasts at least, in nanoseconds.
const SPAN: u128 = 500_000;

/// xorshift64*
struct Random(u64);

impl Random {
    fn next(&mut self) -> u64 {
        self.0 ^= self.0 >> 12;
        self.0 ^= self.0 << 25;
        self.0 ^= self.0 >> 27;
        self.0.wrapping_mul(0x2545_F491_4F6C_DD1D)
    }

    fn below(&mut self, n: usize) -> usize {
        (self.next() >> 33) as usize % n
    }

    fn bytes(&mut self, n: usize) -> Vec<u8> {
        (0..n).map(|_| (self.next() >> 56) as u8).collect()
    }

    /// Rows of a table, each below 2^m.
    fn rows(&mut self, n: usize, m: usize) -> Vec<u8> {
        let low = ((1u32 << m) - 1) as u16;
        (0..1 << n).flat_map(|_| ((self.next() >> 48) as u16 & low).to_le_bytes()).collect()
    }
}

#[derive(Clone, Copy, PartialEq)]
enum Side {
    Ours,
    Plain,
}

#[derive(Clone, Copy)]
enum Kind {
    Hash,
    Garble,
    Evaluate,
    GarbleTable,
    EvaluateTable,
}

const KINDS: [(Kind, &str); 5] = [
    (Kind::Hash, "hash"),
    (Kind::Garble, "and-garble"),
    (Kind::Evaluate, "and-evaluate"),
    (Kind::GarbleTable, "table-garble"),
    (Kind::EvaluateTable, "table-evaluate"),
];

impl Kind {
    /// Operations in a batch.
    fn batch(self) -> usize {
        match self {
            Kind::Hash | Kind::Garble | Kind::Evaluate => ROW,
            Kind::GarbleTable | Kind::EvaluateTable => 1,
        }
    }
}

/// The material's bytes of a table of n inputs and m outputs.
fn table_bytes(n: usize, m: usize) -> usize {
    16 * (n - 1 + n * m) + ((m << n) + 7) / 8
}

/// The inputs of a batch, and the memory that it writes.
#[derive(Clone)]
struct Batch {
    gate: u32,
    seed: Vec<u8>,
    offset: Vec<u8>,
    operands: Vec<u8>,
    rows: Vec<u8>,
    material: Vec<u8>,
    new: Vec<u8>,
}

impl Batch {
    /// A batch of a table.
    fn table(random: &mut Random, n: usize, m: usize) -> Batch {
        let mut offset = random.bytes(16);
        offset[0] |= 1;
        Batch {
            gate: random.below(512) as u32,
            seed: random.bytes(16),
            offset,
            operands: random.bytes(16 * n),
            rows: random.rows(n, m),
            material: random.bytes(table_bytes(n, m)),
            new: random.bytes(16 * m),
        }
    }

    /// A batch of so many hashes or AND gates.
    fn row(random: &mut Random, kind: Kind, count: usize) -> Batch {
        let is_hash = matches!(kind, Kind::Hash);
        let mut offset = random.bytes(16);
        offset[0] |= 1;
        Batch {
            gate: 0,
            seed: Vec::new(),
            offset,
            operands: random.bytes(if is_hash { 16 } else { 32 } * count),
            rows: Vec::new(),
            material: random.bytes(32 * count),
            new: random.bytes(16 * count),
        }
    }

    fn new(random: &mut Random, kind: Kind) -> Batch {
        match kind {
            Kind::GarbleTable | Kind::EvaluateTable => Batch::table(random, INPUTS, OUTPUTS),
            _ => Batch::row(random, kind, ROW),
        }
    }

    fn run(&mut self, kind: Kind, side: Side) {
        let Batch { gate, seed, offset, operands, rows, material, new } = self;
        match (kind, side) {
            (Kind::Hash, Side::Ours) => assert!(ours::hash_row(operands, new)),
            (Kind::Hash, Side::Plain) => plain::hash_row(operands, new),
            (Kind::Garble, Side::Ours) => assert!(ours::garble_row(offset, operands, material, new)),
            (Kind::Garble, Side::Plain) => plain::garble_row(offset, operands, material, new),
            (Kind::Evaluate, Side::Ours) => assert!(ours::evaluate_row(operands, material, new)),
            (Kind::Evaluate, Side::Plain) => plain::evaluate_row(operands, material, new),
            (Kind::GarbleTable, Side::Ours) => {
                assert!(ours::garble_one_table(*gate, seed, offset, operands, rows, material, new));
            }
            (Kind::GarbleTable, Side::Plain) => {
                plain::garble_one_table(*gate, seed, offset, operands, rows, material, new);
            }
            (Kind::EvaluateTable, Side::Ours) => {
                assert!(ours::evaluate_one_table(*gate, operands, material, new));
            }
            (Kind::EvaluateTable, Side::Plain) => {
                plain::evaluate_one_table(*gate, operands, material, new);
            }
        }
    }

    /// Runs both sides on copies, and says whether both wrote the same; keeps what the proved side wrote.
    fn agrees(&mut self, kind: Kind) -> bool {
        let mut other = self.clone();
        self.run(kind, Side::Ours);
        other.run(kind, Side::Plain);
        self.material == other.material && self.new == other.new
    }
}

fn xor(a: &mut [u8], b: &[u8]) {
    for (x, y) in a.iter_mut().zip(b) {
        *x ^= y;
    }
}

/// A garbled table or row of AND gates, evaluated on labels of random bits, and on bytes of no meaning.
fn evaluates(random: &mut Random, garbled: &Batch, kind: Kind) -> bool {
    let mut batch = garbled.clone();
    let mut bits = Vec::new();
    for label in batch.operands.chunks_exact_mut(16) {
        let bit = random.below(2);
        bits.push(bit);
        if bit == 1 {
            xor(label, &garbled.offset);
        }
    }
    let mut good = batch.agrees(kind);
    for (j, (label, zero)) in batch.new.chunks_exact(16).zip(garbled.new.chunks_exact(16)).enumerate() {
        let bit = match kind {
            Kind::EvaluateTable => {
                let row: usize = bits.iter().enumerate().map(|(i, bit)| bit << i).sum();
                usize::from(garbled.rows[2 * row + j / 8] >> (j % 8) & 1)
            }
            _ => bits[2 * j] & bits[2 * j + 1],
        };
        let mut wanted = zero.to_vec();
        if bit == 1 {
            xor(&mut wanted, &garbled.offset);
        }
        good &= label == wanted;
    }
    batch.material = random.bytes(batch.material.len());
    good && batch.agrees(kind)
}

/// Lengths that do not fit are refused, and nothing is written.
fn refuses() -> bool {
    let (mut a, mut b) = ([7u8; 48], [7u8; 16]);
    let refused = !ours::hash_row(&[0; 32], &mut b)
        && !ours::garble_row(&[0; 15], &[0; 32], &mut a, &mut b)
        && !ours::garble_row(&[0; 16], &[0; 31], &mut a, &mut b)
        && !ours::garble_row(&[0; 16], &[0; 32], &mut a[..31], &mut b)
        && !ours::evaluate_row(&[0; 31], &[0; 32], &mut b)
        && !ours::evaluate_row(&[0; 32], &[0; 31], &mut b)
        && !ours::garble_one_table(512, &[0; 16], &[0; 16], &[0; 16], &[0; 4], &mut a[..17], &mut b)
        && !ours::garble_one_table(0, &[0; 16], &[0; 16], &[0; 16], &[0; 6], &mut a[..17], &mut b)
        && !ours::garble_one_table(0, &[0; 16], &[0; 16], &[0; 16], &[0; 4], &mut a[..18], &mut b)
        && !ours::evaluate_one_table(0, &[0; 17], &[0; 17], &mut b)
        && !ours::evaluate_one_table(0, &[], &[0; 17], &mut b);
    refused && a == [7; 48] && b == [7; 16]
}

/// Whether both sides agree on many inputs; says where they do not.
fn all_agree() -> bool {
    let mut random = Random(0x9E37_79B9_7F4A_7C15);
    let mut good = true;
    let mut tell = |name: &str, cases: usize, passed: bool| {
        println!("{name}: {cases} cases, {}", if passed { "equal" } else { "DIFFERENT" });
        good &= passed;
    };
    let sample = u128::from_le_bytes(std::array::from_fn(|i| 0x11 * i as u8));
    let cipher = plain::encrypt(sample).to_be_bytes();
    let published = 0x69c4e0d8_6a7b0430_d8cdb780_70b4c55a_u128.swap_bytes().to_be_bytes();
    tell("the published block, in plain Rust", 1, cipher == published);
    let passed = (0..400).all(|k| Batch::row(&mut random, Kind::Hash, k % 50).agrees(Kind::Hash));
    tell("hash", 400 * 49 / 2, passed);
    let passed = (0..400).all(|k| {
        let mut batch = Batch::row(&mut random, Kind::Garble, k % 50);
        batch.agrees(Kind::Garble) && evaluates(&mut random, &batch, Kind::Evaluate)
    });
    tell("AND, both parties", 400 * 49 / 2, passed);
    let passed = (0..10 * 8 * 16).all(|k| {
        let mut batch = Batch::table(&mut random, 1 + k % 8, 1 + k / 8 % 16);
        batch.agrees(Kind::GarbleTable) && evaluates(&mut random, &batch, Kind::EvaluateTable)
    });
    tell("table, both parties", 10 * 8 * 16, passed);
    tell("lengths that do not fit", 11, refuses());
    good
}

/// Nanoseconds of a batch, the mean over a span.
fn time(batch: &mut Batch, kind: Kind, side: Side, turns: u32) -> f64 {
    let start = Instant::now();
    for _ in 0..turns {
        black_box(&mut *batch).run(kind, side);
    }
    start.elapsed().as_nanos() as f64 / f64::from(turns)
}

/// Turns of a batch that fill the span.
fn turns(batch: &mut Batch, kind: Kind) -> u32 {
    let start = Instant::now();
    let mut turns = 0;
    while turns < 2 || start.elapsed().as_nanos() < SPAN {
        batch.run(kind, Side::Plain);
        turns += 1;
    }
    turns
}

/// The rounds of one kind: the best time of each side, and the ratios.
struct Timed {
    kind: Kind,
    name: &'static str,
    batch: Batch,
    turns: u32,
    best: [f64; 2],
    ratios: Vec<f64>,
}

impl Timed {
    fn new((kind, name): (Kind, &'static str)) -> Timed {
        let mut batch = Batch::new(&mut Random(0xD1B5_4A32_D192_ED03), kind);
        let turns = turns(&mut batch, kind);
        Timed { kind, name, batch, turns, best: [f64::INFINITY; 2], ratios: Vec::new() }
    }

    fn round(&mut self) {
        let took = [Side::Ours, Side::Plain].map(|side| time(&mut self.batch, self.kind, side, self.turns));
        self.ratios.push(took[0] / took[1]);
        self.best = [self.best[0].min(took[0]), self.best[1].min(took[1])];
    }

    fn print(&mut self) {
        let [ours, plain] = self.best.map(|it| it / self.kind.batch() as f64);
        self.ratios.sort_by(f64::total_cmp);
        let median = self.ratios[ROUNDS / 2];
        println!("{:<16}{ours:>12.1}{plain:>12.1}{:>8.3}{median:>8.3}", self.name, ours / plain);
    }
}

/// The best of many short rounds of all kinds and both sides in turn, and the median of the rounds' ratios.
fn time_all() {
    let mut all = KINDS.map(Timed::new);
    for _ in 0..ROUNDS {
        all.iter_mut().for_each(Timed::round);
    }
    println!("{:<16}{:>12}{:>12}{:>8}{:>8}", "", "ours, ns", "plain, ns", "ratio", "median");
    all.iter_mut().for_each(Timed::print);
}

/// Does n batches of one kind on one side.
fn count(words: &[String]) -> Option<()> {
    let [kind, side, n] = words else { return None };
    let (kind, _) = *KINDS.iter().find(|(_, name)| name == kind)?;
    let side = match side.as_str() {
        "ours" => Side::Ours,
        "plain" => Side::Plain,
        _ => return None,
    };
    let mut batch = Batch::new(&mut Random(0xD1B5_4A32_D192_ED03), kind);
    for _ in 0..n.parse().ok()? {
        black_box(&mut batch).run(kind, side);
    }
    println!("{}", kind.batch());
    Some(())
}

fn main() -> ExitCode {
    let words: Vec<String> = std::env::args().skip(1).collect();
    match words.split_first() {
        None => {
            if !all_agree() {
                return ExitCode::FAILURE;
            }
            time_all();
            ExitCode::SUCCESS
        }
        Some((first, rest)) if first == "count" && count(rest).is_some() => ExitCode::SUCCESS,
        Some(_) => {
            eprintln!("speed, or speed count KIND SIDE N");
            ExitCode::from(2)
        }
    }
}
