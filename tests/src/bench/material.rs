//! What the calls are made on: random maps, names, points, tallies and benches.

use outside_tests::random::Rng;
use outside_tests::reference::bench::{
    Bench, BenchV1, BenchV2, BenchV3, Maps, Name, Point, Sheet, SheetV3, Stored, OLD_TOP, TOP,
};

/// Sizes at which every kind of sheet and point is tried.
pub const SIZES: [usize; 11] = [1, 2, 3, 4, 7, 8, 31, 32, 33, 63, 64];

/// Names that are told apart by their first, a middle or their last byte alone,
/// behind a byte 0 too; with zeros, which free places hold as well.
pub const NAMES: [Name; 12] = [
    [0; 8],
    [1, 0, 0, 0, 0, 0, 0, 0],
    [0, 1, 0, 0, 0, 0, 0, 0],
    [0, 0, 0, 0, 0, 0, 1, 0],
    [0, 0, 0, 0, 0, 0, 0, 1],
    [0, 0, 0, 0, 0, 0, 0, 128],
    [255; 8],
    *b"half    ",
    *b"Half    ",
    *b"half   s",
    *b"half\0  s",
    *b"half\0   ",
];

pub fn some_name(rng: &mut Rng) -> Name {
    if rng.once_in(30) {
        rng.next().to_le_bytes()
    } else {
        *rng.pick(&NAMES)
    }
}

/// Any bytes past n: they are no part of a map.
pub fn scribble(n: usize, map: &mut Stored, rng: &mut Rng) {
    map[n..].fill_with(|| rng.byte());
}

/// A random map; past n any bytes or zeros, as Start leaves them.
fn some_map(n: usize, scribbled: bool, rng: &mut Rng) -> Stored {
    let mut map = [0; 64];
    let blocks = rng.within(1, n);
    map[..n].copy_from_slice(&rng.map(n, blocks));
    if scribbled {
        scribble(n, &mut map, rng);
    }
    map
}

pub fn some_maps(n: usize, rng: &mut Rng) -> Maps {
    let scribbled = rng.once_in(2);
    std::array::from_fn(|_| some_map(n, scribbled, rng))
}

/// A place that is free: zeros, any bytes, or a held point once more.
fn some_free_place(held: &[Point], rng: &mut Rng) -> Point {
    match rng.below(3) {
        0 => Point::ZEROS,
        1 if !held.is_empty() => *rng.pick(held),
        _ => Point { name: some_name(rng), map: std::array::from_fn(|_| rng.byte()) },
    }
}

/// A sheet with so many points, whose names are among `NAMES`, and any tally.
pub fn sheet_with(n: usize, map: Stored, count: usize, rng: &mut Rng) -> Sheet {
    let mut sheet = Sheet { count, tally: some_tally(n, rng), ..Sheet::bare(map) };
    let (names, scribbled) = (rng.permutation(NAMES.len()), rng.once_in(2));
    for place in 0..8 {
        sheet.points[place] = if place < count {
            Point { name: NAMES[names[place]], map: some_map(n, scribbled, rng) }
        } else {
            some_free_place(sheet.held(), rng)
        };
    }
    sheet
}

/// No points, eight, or any number of them.
fn some_count(rng: &mut Rng) -> usize {
    match rng.below(4) {
        0 => 0,
        1 => 8,
        _ => rng.below(9),
    }
}

/// A tally: near a top, near another number at which a byte carries into the
/// next, or anywhere.
pub fn some_tally(n: usize, rng: &mut Rng) -> u64 {
    let edge = match rng.below(8) {
        0 | 1 => TOP,
        2 | 3 => OLD_TOP,
        4 | 5 => (1 << (8 * rng.within(1, 7))) - 1,
        6 => return rng.next() >> rng.below(64),
        _ => return 0,
    };
    edge - rng.below(2 * n + 2) as u64
}

/// A bench without faults.
pub fn some_bench(n: usize, rng: &mut Rng) -> Bench {
    let maps = some_maps(n, rng);
    let sheets = maps.map(|map| {
        let count = some_count(rng);
        sheet_with(n, map, count, rng)
    });
    Bench { n, sheets, earlier: some_tally(n, rng) }
}

/// The bench of the third kind with the same maps and points, whose one tally is
/// what is `earlier` here.
pub fn before_tallies(bench: &Bench) -> BenchV3 {
    let sheets = bench.sheets.map(|Sheet { map, count, points, .. }| SheetV3 { map, count, points });
    BenchV3 { n: bench.n, sheets, tally: bench.earlier }
}

pub fn some_bench_v3(n: usize, rng: &mut Rng) -> BenchV3 {
    before_tallies(&some_bench(n, rng))
}

/// A tally of the first kind of bench, with any number of bits; often near its
/// top.
pub fn some_old_tally(rng: &mut Rng) -> u32 {
    match rng.below(4) {
        0 => u32::MAX - rng.below(130) as u32,
        _ => (rng.next() >> rng.within(32, 64).min(63)) as u32,
    }
}

pub fn some_bench_v1(n: usize, rng: &mut Rng) -> BenchV1 {
    BenchV1 { n, maps: some_maps(n, rng), tally: some_old_tally(rng) }
}

pub fn some_bench_v2(n: usize, rng: &mut Rng) -> BenchV2 {
    BenchV2 { n, maps: some_maps(n, rng), tally: some_tally(n, rng) }
}

/// What makes the identity over n no map, each as some elements' bytes.
pub fn faults(n: usize) -> Vec<Vec<(usize, usize)>> {
    let (middle, last) = (n / 2, n - 1);
    let mut list = Vec::new();
    for place in [0, middle, last] {
        list.extend([n, n + 1, 64, 128, 255].map(|no_element| vec![(place, no_element)]));
        if place < last {
            list.extend([place + 1, last].map(|above| vec![(place, above)]));
        }
    }
    // An element that is not the smallest of its block is named.
    for (inner, place) in [(1, 2), (1, last), (middle, last), (last.max(1) - 1, last)] {
        if 0 < inner && inner < place && place < n {
            list.extend([0, inner - 1].map(|first| vec![(inner, first), (place, inner)]));
        }
    }
    list
}

/// The identity over n with some elements' bytes changed.
pub fn put_fault(n: usize, map: &mut Stored, fault: &[(usize, usize)]) {
    for (x, byte) in map[..n].iter_mut().enumerate() {
        *byte = x as u8;
    }
    for &(place, byte) in fault {
        map[place] = byte as u8;
    }
}

pub fn some_sheet(rng: &mut Rng) -> usize {
    if rng.once_in(16) {
        *rng.pick(&[8, 9, 255, 256, 1 << 32, usize::MAX])
    } else {
        rng.below(8)
    }
}
