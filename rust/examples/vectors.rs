//! Writes the IEEE vectors of crates/vectors: `stdin`, each tool with a pattern, and `stdout`, the same with
//! the answer of the processor's own root and cast (a NaN as 7fc00000 or 7ff8000000000000). Run at the root
//! of the repository by `cargo run --release --offline --manifest-path rust/Cargo.toml --example vectors`.
use std::fmt::Write;

#[derive(Clone, Copy)]
enum Tool {
    RootF32 = 1,
    RootF64 = 2,
    Narrow = 3,
    Hypot = 4,
}

fn pattern_f32(x: f32) -> u64 {
    if x.is_nan() {
        0x7fc0_0000
    } else {
        x.to_bits().into()
    }
}

fn pattern_f64(x: f64) -> u64 {
    if x.is_nan() {
        0x7ff8_0000_0000_0000
    } else {
        x.to_bits()
    }
}

fn answer(tool: Tool, bits: u64) -> u64 {
    let wide = f64::from_bits(bits);
    let (high, low) = (
        f32::from_bits((bits >> 32) as u32),
        f32::from_bits(bits as u32),
    );
    match tool {
        Tool::RootF32 => pattern_f32(low.sqrt()),
        Tool::RootF64 => pattern_f64(wide.sqrt()),
        Tool::Narrow => pattern_f32(wide as f32),
        Tool::Hypot => {
            let (a, b) = (high as f64, low as f64);
            pattern_f32((a * a + b * b).sqrt() as f32)
        }
    }
}

/// Both signs of a pattern.
fn signed(bits: u64, width: u32) -> [u64; 2] {
    [bits, bits | 1 << (width - 1)]
}

/// The first, second, middle and last value of every binade of a format: zeros, subnormals, infinities and
/// NaNs, quiet and signalling, among them.
fn boundaries(width: u32, digits: u32, every: usize) -> Vec<u64> {
    let fields = 1u64 << (width - 1 - digits);
    let ends = [0, 1, 1 << (digits - 1), (1 << digits) - 1];
    let near = |field: u64| field < 4 || fields - 4 < field;
    (0..fields)
        .filter(|&field| near(field) || field as usize % every == 0)
        .flat_map(|field| ends.map(|fraction| field << digits | fraction))
        .collect()
}

/// Each power of two among the subnormals, and one less.
fn subnormals(digits: u32) -> Vec<u64> {
    (0..digits)
        .flat_map(|place| [1 << place, (1u64 << place) - 1])
        .collect()
}

/// The halfway point above an f32, and its neighbours.
fn ties(low: u32) -> [u64; 3] {
    let above = match low {
        0x7f7f_ffff => 2f64.powi(128),
        _ => f32::from_bits(low + 1) as f64,
    };
    let middle = ((f32::from_bits(low) as f64 + above) * 0.5).to_bits();
    [middle - 1, middle, middle + 1]
}

fn mixed(index: u64) -> u64 {
    let mut z = index.wrapping_add(1).wrapping_mul(0x9e37_79b9_7f4a_7c15);
    z = (z ^ (z >> 30)).wrapping_mul(0xbf58_476d_1ce4_e5b9);
    z = (z ^ (z >> 27)).wrapping_mul(0x94d0_49bb_1331_11eb);
    z ^ (z >> 31)
}

fn vectors() -> Vec<(Tool, u64)> {
    let mut list = Vec::new();
    let mut add = |tool, patterns: &mut dyn Iterator<Item = u64>| {
        list.extend(patterns.map(|bits| (tool, bits)));
    };
    let both = |patterns: Vec<u64>, width| patterns.into_iter().flat_map(move |p| signed(p, width));
    // roots: every binade's boundaries, subnormals, a dense sample
    add(Tool::RootF32, &mut boundaries(32, 23, 1).into_iter());
    add(Tool::RootF32, &mut both(boundaries(32, 23, 64), 32));
    add(Tool::RootF32, &mut subnormals(23).into_iter());
    add(Tool::RootF32, &mut (0..700).map(|i| mixed(i) >> 33));
    add(Tool::RootF64, &mut boundaries(64, 52, 8).into_iter());
    add(Tool::RootF64, &mut both(boundaries(64, 52, 512), 64));
    add(Tool::RootF64, &mut subnormals(52).into_iter());
    add(Tool::RootF64, &mut (0..700).map(|i| mixed(i) >> 1));
    // narrowing: ties of normal, subnormal and overflowing results and their neighbours, f32's range
    let lows = (0..256).map(|field| field << 23);
    let near = lows.flat_map(|low: u32| [low, low.wrapping_sub(1), low | 0x12_3456]);
    let finite: Vec<u32> = near.filter(|&low| low < 0x7f80_0000).collect();
    add(Tool::Narrow, &mut finite.iter().flat_map(|&low| ties(low)));
    add(Tool::Narrow, &mut both(boundaries(64, 52, 512), 64));
    add(
        Tool::Narrow,
        &mut (0..24)
            .flat_map(|place| ties((1 << place) - 1))
            .map(|p| p | 1 << 63),
    );
    add(
        Tool::Narrow,
        &mut (0..700).map(|i| (871 + mixed(i) % 283) << 52 | mixed(i) >> 12 | (i & 1) << 63),
    );
    // hypot: pairs of special values, and a dense sample
    let special = [
        0,
        1,
        0x7f_ffff,
        0x80_0000,
        0x3f80_0000,
        0x7f7f_ffff,
        0x7f80_0000,
        0x7fc0_0000,
        0x8000_0000,
    ];
    for a in special {
        add(Tool::Hypot, &mut special.iter().map(|b| a << 32 | b));
    }
    add(Tool::Hypot, &mut (0..700).map(mixed));
    list
}

fn main() -> std::io::Result<()> {
    let (mut asked, mut answered) = (String::new(), String::new());
    for (tool, bits) in vectors() {
        let line = format!("{:08x} {:08x} {:08x}", tool as u32, bits >> 32, bits as u32);
        let wanted = answer(tool, bits);
        writeln!(asked, "{line}").unwrap();
        writeln!(
            answered,
            "{line} {:08x} {:08x}",
            wanted >> 32,
            wanted as u32
        )
        .unwrap();
    }
    std::fs::write("crates/vectors/stdin", asked)?;
    std::fs::write("crates/vectors/stdout", answered)
}
