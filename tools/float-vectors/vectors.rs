// Writes crates/float_vectors/stdin: what each float step must give, worked out by Rust's std on this machine,
// whose f32 is IEEE 754 binary32, a row a line in the form of oracle/README.md; and spoiled rows, out of form or with
// another result, which whoever compares must not take. Run:
//
//     rustc -O -o target/vectors tools/float-vectors/vectors.rs
//     target/vectors > crates/float_vectors/stdin
//     target/vectors counts > crates/float_vectors/stdout
//
// Equal zeros in `f32::min` and `max` are left open by std, so smaller and larger are written here as
// document 01 has them, by std's comparisons; a NaN result is written as 7FC00000; powi(2) is the product.

const NAN: u32 = 0x7fc0_0000;
const INF: u32 = 0x7f80_0000;
const SIGN: u32 = 0x8000_0000;

// Magnitudes: zero, the smallest and largest subnormals, the smallest and largest normals, infinity,
// and what lies between.
const PLAIN: [u32; 24] = [
    0x0000_0000, 0x0000_0001, 0x0000_0003, 0x0040_0000, 0x007f_ffff, 0x0080_0000, 0x0080_0001, 0x2edb_e6ff,
    0x3dcc_cccd, 0x3e80_0000, 0x3eff_ffff, 0x3f00_0000, 0x3f7f_ffff, 0x3f80_0000, 0x3f80_0001, 0x3fa0_0000,
    0x4000_0000, 0x4020_0000, 0x437f_0000, 0x4b7f_ffff, 0x4b80_0000, 0x7f00_0000, 0x7f7f_ffff, 0x7f80_0000,
];

// NaN patterns: quiet and signalling, with payloads, of both signs.
const NANS: [u32; 6] = [0x7fc0_0000, 0xffc0_0000, 0x7f80_0001, 0x7fbf_ffff, 0xffff_ffff, 0x7fd5_5555];

fn f(w: u32) -> f32 {
    f32::from_bits(w)
}

fn word(v: f32) -> u64 {
    if v.is_nan() { NAN as u64 } else { v.to_bits() as u64 }
}

struct Out {
    rows: Vec<[u64; 5]>,
}

// A row: its step's letter, three operands and the result.
fn line(r: &[u64; 5]) -> String {
    format!("{} {:x} {:x} {:x} {:x}", (b'a' + r[0] as u8) as char, r[1], r[2], r[3], r[4])
}

// Of the first and the last row of each step, what must not be taken: the result one off either way, a bit of it
// changed, another result after it, none, one with a zero before it, in capitals, over 32 bits; a row of another step,
// with an operand too few or too many, one over 32 bits; with two spaces, one at the end; an empty row, a lone letter.
fn spoiled(rows: &[[u64; 5]]) -> Vec<String> {
    let mut all = Vec::new();
    for step in 0..NAMES.len() as u64 {
        let own: Vec<_> = rows.iter().filter(|r| r[0] == step).collect();
        for r in [own[0], own[own.len() - 1]] {
            let with = |result: u64| line(&[r[0], r[1], r[2], r[3], result]);
            all.push(with(r[4].wrapping_add(1)));
            all.push(with(r[4].wrapping_sub(1)));
            all.push(with(r[4] ^ 0x8000_0000));
        }
        let r = own[own.len() / 2];
        let right = line(r);
        let asked = right.rsplit_once(' ').unwrap().0;
        all.push(format!("{right} 0"));
        all.push(asked.to_string());
        all.push(format!("{asked} "));
        all.push(format!("{asked} 0{:x}", r[4]));
        all.push(format!("{asked} {:x}", r[4] ^ 1 << 32));
        all.push(format!("{asked} 0 {:x}", r[4]));
        all.push(format!("{} {:x} {:x} {:x}", &right[..1], r[1], r[2], r[4]));
        all.push(format!("{} {:x} {:x} {:x} {:x}", &right[..1], r[1] | 1 << 32, r[2], r[3], r[4]));
        all.push(format!("{right} "));
        all.push(right.replacen(' ', "  ", 1));
        all.push(format!("r{}", &right[1..]));
        all.push(format!("A{}", &right[1..]));
        if right[1..] != right[1..].to_uppercase() {
            all.push(format!("{}{}", &right[..1], right[1..].to_uppercase()));
        }
        all.push(right[..1].to_string());
    }
    all.push(String::new());
    all
}

impl Out {
    fn put(&mut self, step: u64, a: u32, b: u32, c: u32, result: u64) {
        self.rows.push([step, a as u64, b as u64, c as u64, result]);
    }
}

fn smaller(a: f32, b: f32) -> f32 {
    if a.is_nan() || b < a { b } else { a }
}

fn larger(a: f32, b: f32) -> f32 {
    if a.is_nan() || b > a { b } else { a }
}

fn byte(v: f32) -> u64 {
    if v.is_nan() { 0 } else { (v.clamp(0.0, 1.0) * 255.0).round() as u8 as u64 }
}

// One coordinate of `bilinear_into`: x0, x1, fx.
fn axis(sx: f32, w: usize) -> (u64, u64, f32) {
    let x = if sx.is_nan() { 0.0 } else { sx.clamp(0.0, (w - 1) as f32) };
    let x0 = x.floor() as usize;
    let x1 = (x0 + 1).min(w - 1);
    (x0 as u64, x1 as u64, x - x0 as f32)
}

// Both signs of each magnitude, the NaN patterns, and some scattered words.
fn words() -> Vec<u32> {
    let mut all = Vec::new();
    for w in PLAIN {
        all.push(w);
        all.push(w | SIGN);
    }
    all.extend(NANS);
    all.extend(scattered(24));
    all
}

// A fixed sequence of words that no step was written for.
fn scattered(n: usize) -> Vec<u32> {
    let mut x: u32 = 0x1234_5678;
    let mut all = Vec::new();
    for _ in 0..n {
        x ^= x << 13;
        x ^= x >> 17;
        x ^= x << 5;
        all.push(x);
    }
    all
}

// Words v from 0 to 1 where v * 255 is rounded to a whole number and a half.
fn byte_ties() -> Vec<u32> {
    let mut all = Vec::new();
    for k in [0u32, 1, 2, 3, 64, 126, 127, 128, 253, 254] {
        let near = ((k as f32 + 0.5) / 255.0).to_bits();
        for w in near - 2..near + 3 {
            if f(w) * 255.0 == k as f32 + 0.5 {
                all.push(w - 1);
                all.push(w);
                all.push(w + 1);
                break;
            }
        }
    }
    all
}

// The ends of each kind of value, exact squares, and radicands whose roots lie nearest to a number half way
// between two values: such a number is an odd r of 25 digits, and r * r has 24 digits, zeros, and 1 to 25.
fn roots() -> Vec<u32> {
    let mut all = vec![0x0000_0002, 0x0000_0004, 0x0000_0009, 0x0000_1000, 0x003f_ffff, 0x007f_fffe];
    all.extend([0x4080_0000, 0x4110_0000, 0x4040_0000, 0x3e00_0000, 0x7e80_0000, 0x5d5e_0b6b]);
    for r in [0x100_0001u64, 0x100_0003, 0x100_0005, 0x1ff_fffb, 0x1ff_fffd, 0x1ff_ffff] {
        let digits = 64 - (r * r).leading_zeros();
        let m = (r * r) >> (digits - 24);
        // 49 digits: a value from 1 to 2; 50 digits: from 0.5 to 1
        let exponent = 126 + digits % 2;
        for n in [m - 1, m, m + 1] {
            all.push((exponent << 23) + (n as u32 - 0x80_0000));
        }
    }
    all
}

// The steps' names, in the order of their numbers.
const NAMES: [&str; 17] = [
    "word of value",
    "smaller",
    "larger",
    "clamp",
    "unit",
    "finite",
    "rem",
    "rem_euclid",
    "wrap",
    "sqrt",
    "abs",
    "square",
    "floor",
    "byte",
    "axis at",
    "axis next",
    "axis along",
];

fn main() {
    let mut out = Out { rows: Vec::new() };
    let all = words();
    let few = [
        0,
        SIGN,
        1,
        0x8000_0001,
        0x3f00_0000,
        0x3f80_0000,
        0xbf80_0000,
        0x7f7f_ffff,
        INF,
        INF | SIGN,
        NAN,
        0xff80_0001,
    ];
    for &a in &all {
        out.put(0, a, 0, 0, word(f(a)));
    }
    for &a in &few {
        for &b in &few {
            if a <= b || a % SIGN == b % SIGN || a == NAN {
                out.put(1, a, b, 0, word(smaller(f(a), f(b))));
                out.put(2, a, b, 0, word(larger(f(a), f(b))));
            }
        }
    }
    let bounds = [(0u32, 0x3f80_0000u32), (SIGN, 0), (0, SIGN), (INF | SIGN, INF), (0xbf80_0000, 0x3f00_0000)];
    for &(lo, hi) in &bounds {
        for &a in &few {
            out.put(3, a, lo, hi, word(f(a).clamp(f(lo), f(hi))));
        }
    }
    for &a in &all {
        out.put(4, a, 0, 0, word(f(a).clamp(0.0, 1.0)));
        out.put(5, a, 0, 0, f(a).is_finite() as u64);
    }
    let divisors = [0x3f80_0000, 0x40c0_0000, 0x0000_0003, 0x3dcc_cccd, 0x7f7f_ffff, INF, 0, NAN];
    let dividends = [
        0, SIGN, 1, 0x8000_0001, 0xaedb_e6ff, 0x3f7f_ffff, 0xbf80_0000, 0xbfa0_0000, 0x40c0_0000, 0x4b80_0001,
        0x7f7f_ffff, 0xff7f_ffff, INF, NAN,
    ];
    for &m in &divisors {
        for &v in &dividends {
            out.put(6, v, m | (v & SIGN), 0, word(f(v) % f(m | (v & SIGN))));
            out.put(7, v, m, 0, word(f(v).rem_euclid(f(m))));
        }
    }
    for pair in scattered(64).chunks(2) {
        let (v, m) = (pair[0], pair[1] % SIGN);
        out.put(6, v, m, 0, word(f(v) % f(m)));
        out.put(7, v, m, 0, word(f(v).rem_euclid(f(m))));
    }
    for &v in &all {
        let w = f(v).rem_euclid(1.0);
        out.put(8, v, 0, 0, word(if f(v) >= 1.0 && w == 0.0 { 1.0 } else { w }));
    }
    for &v in all.iter().chain(&roots()) {
        out.put(9, v, 0, 0, word(f(v).sqrt()));
    }
    for &v in &all {
        out.put(10, v, 0, 0, word(f(v).abs()));
        out.put(11, v, 0, 0, word(f(v) * f(v)));
    }
    // around the ends of u64 and of the whole numbers that an f32 holds
    let large = [0x4b00_0001, 0x4f7f_ffff, 0x4f80_0000, 0x5eff_ffff, 0x5f00_0000, 0x5f7f_ffff, 0x5f80_0000];
    for &v in all.iter().chain(&large) {
        out.put(12, v, 0, 0, f(v).floor() as u64);
    }
    for &v in all.iter().chain(&byte_ties()) {
        out.put(13, v, 0, 0, byte(f(v)));
    }
    for side in [1usize, 2, 7, 2048, 0x100_0000] {
        for x in [
            0,
            SIGN,
            1,
            0x3f7f_ffff,
            0x4020_0000,
            0xbf80_0000,
            0x40bf_ffff,
            0x44ff_e000,
            0x4b7f_ffff,
            INF,
            INF | SIGN,
            NAN,
        ] {
            let (at, next, along) = axis(f(x), side);
            out.put(14, x, side as u32, 0, at);
            out.put(15, x, side as u32, 0, next);
            out.put(16, x, side as u32, 0, word(along));
        }
    }
    if std::env::args().nth(1).as_deref() == Some("counts") {
        for (k, name) in NAMES.iter().enumerate() {
            println!("{}: {} right, 0 wrong", name, out.rows.iter().filter(|r| r[0] == k as u64).count());
        }
        println!("spoiled rows: {} right, 0 wrong", spoiled(&out.rows).len());
        println!("rows of no step: 0 right, 0 wrong");
        return;
    }
    println!(
        "# what each float step must give; written by tools/float-vectors/vectors.rs with Rust's std on IEEE 754 hardware"
    );
    for r in &out.rows {
        println!("{}", line(r));
    }
    println!("# spoiled");
    for row in spoiled(&out.rows) {
        println!("!{row}");
    }
}
