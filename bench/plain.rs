//! The same steps in plain Rust, written from the rules alone: AES-128 by four tables, the AES hash, the AND half gate
//! and the table gate, on labels of 16 bytes.

/// A label: the low word in the low 64 bits.
pub type Label = u128;

const fn double(x: u8) -> u8 {
    (x << 1) ^ (if x & 0x80 != 0 { 0x1b } else { 0 })
}

/// The S-box, from the powers of 3 and of its inverse.
const fn s_box() -> [u8; 256] {
    let mut table = [0u8; 256];
    let (mut p, mut q) = (1u8, 1u8);
    loop {
        p ^= double(p);
        q ^= q << 1;
        q ^= q << 2;
        q ^= q << 4;
        if q & 0x80 != 0 {
            q ^= 0x09;
        }
        table[p as usize] = 0x63
            ^ q
            ^ q.rotate_left(1)
            ^ q.rotate_left(2)
            ^ q.rotate_left(3)
            ^ q.rotate_left(4);
        if p == 1 {
            break;
        }
    }
    table[0] = 0x63;
    table
}

/// SubBytes and MixColumns of a byte in row 0; the other rows' tables are turns of it.
const fn mixed(turn: u32) -> [u32; 256] {
    let s = s_box();
    let mut table = [0u32; 256];
    let mut x = 0;
    while x < 256 {
        let two = double(s[x]);
        table[x] = u32::from_le_bytes([two, s[x], s[x], two ^ s[x]]).rotate_left(8 * turn);
        x += 1;
    }
    table
}

const fn expand(key: [u8; 16]) -> [u32; 44] {
    let s = s_box();
    let mut w = [0u32; 44];
    let mut round = 1u8;
    let mut i = 0;
    while i < 44 {
        w[i] = if i < 4 {
            u32::from_le_bytes([key[4 * i], key[4 * i + 1], key[4 * i + 2], key[4 * i + 3]])
        } else if i % 4 == 0 {
            let [a, b, c, d] = w[i - 1].to_le_bytes();
            let turned = [s[b as usize] ^ round, s[c as usize], s[d as usize], s[a as usize]];
            round = double(round);
            w[i - 4] ^ u32::from_le_bytes(turned)
        } else {
            w[i - 4] ^ w[i - 1]
        };
        i += 1;
    }
    w
}

static S: [u8; 256] = s_box();
static T0: [u32; 256] = mixed(0);
static T1: [u32; 256] = mixed(1);
static T2: [u32; 256] = mixed(2);
static T3: [u32; 256] = mixed(3);
const KEYS: [u32; 44] = expand([0, 1, 2, 3, 4, 5, 6, 7, 8, 9, 10, 11, 12, 13, 14, 15]);

#[inline(always)]
fn mix(a: u32, b: u32, c: u32, d: u32, key: u32) -> u32 {
    T0[(a & 0xff) as usize]
        ^ T1[(b >> 8 & 0xff) as usize]
        ^ T2[(c >> 16 & 0xff) as usize]
        ^ T3[(d >> 24) as usize]
        ^ key
}

#[inline(always)]
fn last(a: u32, b: u32, c: u32, d: u32, key: u32) -> u32 {
    u32::from_le_bytes([
        S[(a & 0xff) as usize],
        S[(b >> 8 & 0xff) as usize],
        S[(c >> 16 & 0xff) as usize],
        S[(d >> 24) as usize],
    ]) ^ key
}

/// AES-128 of the block's 16 bytes, lowest first, under the key 00, 01, .., 0F.
#[inline(always)]
pub fn encrypt(block: u128) -> u128 {
    let mut a = block as u32 ^ KEYS[0];
    let mut b = (block >> 32) as u32 ^ KEYS[1];
    let mut c = (block >> 64) as u32 ^ KEYS[2];
    let mut d = (block >> 96) as u32 ^ KEYS[3];
    let mut k = 4;
    while k < 40 {
        (a, b, c, d) = (
            mix(a, b, c, d, KEYS[k]),
            mix(b, c, d, a, KEYS[k + 1]),
            mix(c, d, a, b, KEYS[k + 2]),
            mix(d, a, b, c, KEYS[k + 3]),
        );
        k += 4;
    }
    let e = last(a, b, c, d, KEYS[40]);
    let f = last(b, c, d, a, KEYS[41]);
    let g = last(c, d, a, b, KEYS[42]);
    let h = last(d, a, b, c, KEYS[43]);
    u128::from(e) | u128::from(f) << 32 | u128::from(g) << 64 | u128::from(h) << 96
}

#[inline(always)]
fn hashed(label: Label, tweak: u64) -> Label {
    let high = (label >> 64) as u64;
    let low = label as u64;
    let y = u128::from(high ^ tweak) | u128::from(high ^ low) << 64;
    encrypt(y) ^ y
}

/// The AES hash. One copy of it is faster than one in each caller.
#[inline(never)]
pub fn hash(label: Label, tweak: u64) -> Label {
    hashed(label, tweak)
}

/// The 16 lowest bits of the AES hash: the last rounds leave out what does not reach them.
#[inline(never)]
fn hash_low(label: Label, tweak: u64) -> u16 {
    hashed(label, tweak) as u16
}

#[inline(always)]
fn point(gate: u32, k: usize) -> u64 {
    1024 * u64::from(gate) + k as u64
}

/// The label where the lowest bit is 1, and else zero.
#[inline(always)]
fn times(bit: u128, label: Label) -> Label {
    (bit & 1).wrapping_neg() & label
}

/// T, U and the zero label of the new wire.
#[inline]
pub fn garble_and(gate: u32, delta: Label, a: Label, b: Label) -> (Label, Label, Label) {
    let fa = hash(a, point(gate, 0));
    let fb = hash(b, point(gate, 1));
    let t = fa ^ hash(a ^ delta, point(gate, 0)) ^ times(b, delta);
    let u = fb ^ hash(b ^ delta, point(gate, 1)) ^ a;
    (t, u, fa ^ times(a, t) ^ fb ^ times(b, u ^ a))
}

/// The evaluator's label of the new wire.
#[inline]
pub fn evaluate_and(gate: u32, t: Label, u: Label, a: Label, b: Label) -> Label {
    hash(a, point(gate, 0)) ^ times(a, t) ^ hash(b, point(gate, 1)) ^ times(b, u ^ a)
}

pub fn label_at(bytes: &[u8], k: usize) -> Label {
    Label::from_le_bytes(bytes[16 * k..16 * k + 16].try_into().unwrap())
}

fn put_label(bytes: &mut [u8], k: usize, label: Label) {
    bytes[16 * k..16 * k + 16].copy_from_slice(&label.to_le_bytes());
}

/// Adds to each sum j the labels whose number has bit j.
#[inline]
fn gather(numbers: &[u16], labels: &[Label], sums: &mut [Label]) {
    for (j, sum) in sums.iter_mut().enumerate() {
        let mut all = *sum;
        for (number, label) in numbers.iter().zip(labels) {
            all ^= times(u128::from(number >> j), *label);
        }
        *sum = all;
    }
}

#[inline]
fn fold(v: &mut [Label]) {
    let (low, high) = v.split_at_mut(v.len() / 2);
    for (x, y) in low.iter_mut().zip(high) {
        *x ^= *y;
    }
}

/// The m lowest bits.
fn low_bits(m: usize) -> u16 {
    ((1u32 << m) - 1) as u16
}

/// The labels of colour 0, and the number of the colours.
#[inline]
fn bases(delta: Label, zeros: &[Label]) -> ([Label; 8], usize) {
    let mut base = [0; 8];
    let mut alpha = 0;
    for (j, zero) in zeros.iter().enumerate() {
        base[j] = zero ^ times(*zero, delta);
        alpha |= (zero & 1) as usize * (1 << j);
    }
    (base, alpha)
}

/// Both labels that a one-hot label becomes; answers what is hashed.
#[inline]
fn split(gate: u32, place: usize, x: &mut Label, y: &mut Label) -> Label {
    let c = hash(*x, point(gate, place));
    *y = c;
    *x ^= c;
    c
}

/// The garbler's one-hot labels, level by level, and their rows of the material.
#[inline]
fn garble_one_hot(gate: u32, delta: Label, base: &[Label], v: &mut [Label], material: &mut [u8]) {
    v[0] = base[0] ^ delta;
    v[1] = base[0];
    for (j, base) in base.iter().enumerate().skip(1) {
        let w = 1 << j;
        let (front, back) = v[..2 * w].split_at_mut(w);
        let both = front.iter_mut().zip(back).enumerate();
        let row = both.fold(*base, |row, (i, (x, y))| row ^ split(gate, w + i, x, y));
        put_label(material, j - 1, row);
    }
}

/// The numbers under one key of a level.
#[inline]
fn pick(gate: u32, key: Label, low: u16, numbers: &mut [u16]) {
    let w = numbers.len();
    for (i, number) in numbers.iter_mut().enumerate() {
        *number = hash_low(key, point(gate, 256 + w + i)) & low;
    }
}

/// The numbers of each level l, 2^l of them from place 2^l on.
#[inline]
fn pick_all(gate: u32, delta: Label, base: &[Label], low: u16) -> [u16; 512] {
    let mut numbers = [0u16; 512];
    for (l, base) in base.iter().enumerate() {
        let w = 1 << l;
        pick(gate, *base, low, &mut numbers[2 * w..3 * w]);
        pick(gate, base ^ delta, low, &mut numbers[3 * w..4 * w]);
    }
    numbers
}

/// The random function's number of x, from those of the levels.
#[inline]
fn random(s: u16, n: usize, numbers: &[u16], x: usize) -> u16 {
    (1..=n).fold(s, |f, l| f ^ numbers[(1 << l) + (x & ((1 << l) - 1))])
}

/// The masked table.
#[inline]
fn mask(rows: &[u8], alpha: usize, s: u16, n: usize, numbers: &[u16], masked: &mut [u16]) {
    for (x, f) in masked.iter_mut().enumerate() {
        let at = 2 * (x ^ alpha);
        *f = u16::from_le_bytes([rows[at], rows[at + 1]]) ^ random(s, n, numbers, x);
    }
}

/// One level of the garbler's: its rows of the material from a place on, and its parts of the new labels.
#[inline]
fn garble_level(
    gate: u32,
    l: usize,
    keys: [Label; 2],
    numbers: &[u16],
    v: &[Label],
    rows: &mut [u8],
    new: &mut [Label],
) {
    let w = 1 << (l - 1);
    let m = new.len();
    let mut zero = [0; 16];
    let mut one = [0; 16];
    gather(&numbers[2 * w..3 * w], &v[..w], &mut zero[..m]);
    gather(&numbers[3 * w..4 * w], &v[w..2 * w], &mut one[..m]);
    for (j, label) in new.iter_mut().enumerate() {
        let t = point(gate, 512 + 16 * l + j);
        let part = zero[j] ^ hash(keys[0], t);
        put_label(rows, j, part ^ one[j] ^ hash(keys[1], t));
        *label ^= part;
    }
}

/// The garbler's step of a table gate: n zero labels, 2^n rows of 2 bytes, the material and m new zero labels.
pub fn garble_table(
    gate: u32,
    seed: Label,
    delta: Label,
    zeros: &[Label],
    rows: &[u8],
    material: &mut [u8],
    new: &mut [Label],
) {
    let (n, m) = (zeros.len(), new.len());
    let (base, alpha) = bases(delta, zeros);
    let base = &base[..n];
    let mut memory = [0; 256];
    let v = &mut memory[..1 << n];
    garble_one_hot(gate, delta, base, v, material);
    let numbers = pick_all(gate, delta, base, low_bits(m));
    let s = hash_low(seed, (1 << 32) + 2048 + u64::from(gate)) & low_bits(m);
    let mut masked = [0u16; 256];
    let masked = &mut masked[..1 << n];
    mask(rows, alpha, s, n, &numbers, masked);
    pack(masked, m, &mut material[16 * (n - 1 + n * m)..]);
    for (j, label) in new.iter_mut().enumerate() {
        *label = times(u128::from(s >> j), delta);
    }
    gather(masked, v, new);
    garble_levels(gate, delta, base, &numbers, v, &mut material[16 * (n - 1)..], new);
}

/// The garbler's levels, the last first.
#[inline]
fn garble_levels(
    gate: u32,
    delta: Label,
    base: &[Label],
    numbers: &[u16],
    v: &mut [Label],
    rows: &mut [u8],
    new: &mut [Label],
) {
    let (n, m) = (base.len(), new.len());
    for l in (1..=n).rev() {
        let keys = [base[l - 1], base[l - 1] ^ delta];
        garble_level(gate, l, keys, numbers, v, &mut rows[16 * m * (n - l)..], new);
        fold(&mut v[..1 << l]);
    }
}

/// The evaluator's one-hot labels: at each level the one that it lacks comes out of the row.
#[inline]
fn evaluate_one_hot(gate: u32, labels: &[Label], v: &mut [Label], material: &[u8]) {
    v[0] = labels[0];
    v[1] = labels[0];
    let mut x = (labels[0] & 1) as usize;
    for (j, label) in labels.iter().enumerate().skip(1) {
        let w = 1 << j;
        let (front, back) = v[..2 * w].split_at_mut(w);
        let row = label_at(material, j - 1) ^ label;
        let known = (0..x).chain(x + 1..w);
        let missing = known.fold(row, |all, i| all ^ split(gate, w + i, &mut front[i], &mut back[i]));
        back[x] = missing;
        front[x] ^= missing;
        x |= (label & 1) as usize * w;
    }
}

/// One level of the evaluator's: its parts of the new labels, from its rows of the material.
#[inline]
fn evaluate_level(gate: u32, l: usize, key: Label, numbers: &[u16], v: &[Label], rows: &[u8], new: &mut [Label]) {
    let w = 1 << (l - 1);
    let b = (key & 1) as usize;
    gather(numbers, &v[b * w..b * w + w], new);
    for (j, label) in new.iter_mut().enumerate() {
        *label ^= hash(key, point(gate, 512 + 16 * l + j)) ^ times(key, label_at(rows, j));
    }
}

/// The evaluator's step of a table gate: n labels, the material and m new labels.
pub fn evaluate_table(gate: u32, labels: &[Label], material: &[u8], new: &mut [Label]) {
    let (n, m) = (labels.len(), new.len());
    let mut memory = [0; 256];
    let v = &mut memory[..1 << n];
    evaluate_one_hot(gate, labels, v, material);
    let mut masked = [0u16; 256];
    let masked = &mut masked[..1 << n];
    unpack(&material[16 * (n - 1 + n * m)..], m, masked);
    new.fill(0);
    gather(masked, v, new);
    let mut numbers = [0u16; 128];
    for l in (1..=n).rev() {
        let numbers = &mut numbers[..1 << (l - 1)];
        pick(gate, labels[l - 1], low_bits(m), numbers);
        let rows = &material[16 * (n - 1 + m * (n - l))..];
        evaluate_level(gate, l, labels[l - 1], numbers, v, rows, new);
        fold(&mut v[..1 << l]);
    }
}

/// Rows of m bits, one after the other, lowest bit first.
fn pack(rows: &[u16], m: usize, bytes: &mut [u8]) {
    let (mut held, mut bits, mut at) = (0u32, 0, 0);
    for row in rows {
        held |= u32::from(*row) << bits;
        bits += m;
        while bits >= 8 {
            bytes[at] = held as u8;
            at += 1;
            held >>= 8;
            bits -= 8;
        }
    }
    if bits > 0 {
        bytes[at] = held as u8;
    }
}

fn unpack(bytes: &[u8], m: usize, rows: &mut [u16]) {
    let (mut held, mut bits, mut at) = (0u32, 0, 0);
    for row in rows {
        while bits < m {
            held |= u32::from(bytes[at]) << bits;
            at += 1;
            bits += 8;
        }
        *row = (held & ((1 << m) - 1)) as u16;
        held >>= m;
        bits -= m;
    }
}

// The calls of the bench, on bytes.

#[inline(never)]
pub fn hash_row(labels: &[u8], out: &mut [u8]) {
    for (k, (label, out)) in labels.chunks_exact(16).zip(out.chunks_exact_mut(16)).enumerate() {
        let label = Label::from_le_bytes(label.try_into().unwrap());
        out.copy_from_slice(&hash(label, k as u64).to_le_bytes());
    }
}

#[inline(never)]
pub fn garble_row(offset: &[u8], operands: &[u8], material: &mut [u8], new: &mut [u8]) {
    let delta = label_at(offset, 0);
    let gates = operands.chunks_exact(32).zip(material.chunks_exact_mut(32)).zip(new.chunks_exact_mut(16));
    for (k, ((operands, material), new)) in gates.enumerate() {
        let (t, u, zero) = garble_and(k as u32, delta, label_at(operands, 0), label_at(operands, 1));
        put_label(material, 0, t);
        put_label(material, 1, u);
        put_label(new, 0, zero);
    }
}

#[inline(never)]
pub fn evaluate_row(operands: &[u8], material: &[u8], new: &mut [u8]) {
    let gates = operands.chunks_exact(32).zip(material.chunks_exact(32)).zip(new.chunks_exact_mut(16));
    for (k, ((operands, material), new)) in gates.enumerate() {
        let (t, u) = (label_at(material, 0), label_at(material, 1));
        let label = evaluate_and(k as u32, t, u, label_at(operands, 0), label_at(operands, 1));
        put_label(new, 0, label);
    }
}

/// The labels of the bytes, in an array of 16.
fn labels_of(bytes: &[u8]) -> [Label; 16] {
    let mut labels = [0; 16];
    for (label, bytes) in labels.iter_mut().zip(bytes.chunks_exact(16)) {
        *label = Label::from_le_bytes(bytes.try_into().unwrap());
    }
    labels
}

fn put_labels(bytes: &mut [u8], labels: &[Label]) {
    for (bytes, label) in bytes.chunks_exact_mut(16).zip(labels) {
        bytes.copy_from_slice(&label.to_le_bytes());
    }
}

#[inline(never)]
pub fn garble_one_table(
    gate: u32,
    seed: &[u8],
    offset: &[u8],
    zeros: &[u8],
    rows: &[u8],
    material: &mut [u8],
    new: &mut [u8],
) {
    let (n, m) = (zeros.len() / 16, new.len() / 16);
    let zeros = labels_of(zeros);
    let mut wires = [0; 16];
    let (seed, delta) = (label_at(seed, 0), label_at(offset, 0));
    garble_table(gate, seed, delta, &zeros[..n], rows, material, &mut wires[..m]);
    put_labels(new, &wires[..m]);
}

#[inline(never)]
pub fn evaluate_one_table(gate: u32, labels: &[u8], material: &[u8], new: &mut [u8]) {
    let (n, m) = (labels.len() / 16, new.len() / 16);
    let labels = labels_of(labels);
    let mut wires = [0; 16];
    evaluate_table(gate, &labels[..n], material, &mut wires[..m]);
    put_labels(new, &wires[..m]);
}
