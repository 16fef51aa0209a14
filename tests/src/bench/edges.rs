//! The edges of a tally, written out: which Adds draw 13, and where the tally
//! stands after the others. No other sheet's tally matters, nor what was earlier.

use outside_tests::algebras::{bare, cyclic};
use outside_tests::random::Rng;
use outside_tests::reference::algebra::Algebra;
use outside_tests::reference::bench::Bench;
use outside_tests::reference::map::{identity, Map};
use outside_tests::report::{Run, Suite};

use super::calls::{ask_add, ask_clear, Pair};
use super::images::Image;
use super::material::some_bench;
use super::Comparison;

const TOP: u64 = 18_446_744_073_709_551_615;

/// The sheet's tally, n, the blocks that the Add loses, the number, the tally after it.
const EDGES: [(u64, usize, usize, u32, u64); 33] = [
    // At the top and just below it.
    (TOP, 2, 0, 0, TOP),
    (TOP, 2, 1, 13, TOP),
    (TOP, 3, 0, 0, TOP),
    (TOP, 3, 1, 13, TOP),
    (TOP, 3, 2, 13, TOP),
    (TOP, 64, 63, 13, TOP),
    (TOP - 1, 2, 0, 0, TOP - 1),
    (TOP - 1, 2, 1, 0, TOP),
    (TOP - 1, 3, 1, 0, TOP),
    (TOP - 1, 3, 2, 13, TOP - 1),
    (TOP - 2, 3, 1, 0, TOP - 1),
    (TOP - 2, 3, 2, 0, TOP),
    (TOP - 3, 3, 2, 0, TOP - 1),
    // 64 elements, of which an Add loses 62 or 63 blocks.
    (TOP - 61, 64, 62, 13, TOP - 61),
    (TOP - 62, 64, 62, 0, TOP),
    (TOP - 62, 64, 63, 13, TOP - 62),
    (TOP - 63, 64, 62, 0, TOP - 1),
    (TOP - 63, 64, 63, 0, TOP),
    (TOP - 64, 64, 63, 0, TOP - 1),
    (TOP - 62, 64, 0, 0, TOP - 62),
    (TOP - 62, 64, 1, 0, TOP - 61),
    // The top of an old bench is passed.
    (4_294_967_294, 2, 1, 0, 4_294_967_295),
    (4_294_967_295, 2, 0, 0, 4_294_967_295),
    (4_294_967_295, 2, 1, 0, 4_294_967_296),
    (4_294_967_295, 3, 2, 0, 4_294_967_297),
    (4_294_967_295, 64, 63, 0, 4_294_967_358),
    (4_294_967_296, 3, 1, 0, 4_294_967_297),
    // The top of 63 bits too.
    (9_223_372_036_854_775_807, 2, 1, 0, 9_223_372_036_854_775_808),
    (9_223_372_036_854_775_800, 64, 63, 0, 9_223_372_036_854_775_863),
    // Far below.
    (0, 2, 0, 0, 0),
    (0, 3, 2, 0, 2),
    (0, 64, 63, 0, 63),
    (1_000_000_000_000, 64, 32, 0, 1_000_000_000_032),
];

/// An algebra over n and a pair whose Add to the identity loses so many blocks,
/// and the map that it gives.
fn losing(n: usize, lost: usize) -> (Algebra, usize, usize, Map) {
    if lost == 0 {
        return (bare(n), n - 1, n - 1, identity(n));
    }
    if lost == 1 {
        let joined = (0..n).map(|x| if x == 1 { 0 } else { x as u8 });
        return (bare(n), 0, 1, joined.collect());
    }
    // In the group of order n the pair 0, d joins what is equal modulo d.
    let d = n - lost;
    assert!(n % d == 0);
    (cyclic(n), 0, d, (0..n).map(|x| (x % d) as u8).collect())
}

/// One row, on each sheet in turn; then a Clear.
fn row(comparison: &mut Comparison, tally: u64, n: usize, lost: usize, number: u32, after: u64) {
    let (algebra, x, y, map) = losing(n, lost);
    for sheet in 0..8 {
        let mut bench = some_bench(n, comparison.rng());
        bench.sheets[sheet].tally = tally;
        bench.sheets[sheet].map[..n].copy_from_slice(&identity(n));
        let mut raised = bench.clone();
        if number == 0 {
            raised.sheets[sheet].tally = after;
            raised.sheets[sheet].map[..n].copy_from_slice(&map);
        }
        let pair = Pair { algebra: algebra.clone(), sheet, x, y };
        let found = ask_add(&bench.image(), &pair, comparison.rng());
        let what = || format!("{tally} and {lost} more, n = {n}, sheet {sheet}");
        comparison.compare(found, (number, raised.clone()), what);
        let mut cleared = bench;
        cleared.sheets[sheet].tally = after;
        let found = ask_clear(&raised.image(), sheet, comparison.rng());
        comparison.compare(found, (0, cleared), || format!("then the sheet is cleared: {}", what()));
    }
}

fn edges(s: &mut Suite) {
    let mut comparison = Comparison::new(s);
    for (tally, n, lost, number, after) in EDGES {
        row(&mut comparison, tally, n, lost, number, after);
    }
    // Where a byte carries into the next.
    for k in 1..8 {
        let full: u64 = 1 << (8 * k);
        row(&mut comparison, full - 1, 3, 1, 0, full);
        row(&mut comparison, full - 1, 64, 63, 0, full + 62);
        row(&mut comparison, full - 63, 64, 63, 0, full);
        row(&mut comparison, full - 2, 2, 1, 0, full - 1);
    }
}

/// Eight sheets that all join nothing; those in the set are at the top.
fn some_full(set: u32, earlier: u64, rng: &mut Rng) -> Bench {
    let mut bench = Bench { earlier, ..some_bench(2, rng) };
    for (k, sheet) in bench.sheets.iter_mut().enumerate() {
        sheet.map[..2].copy_from_slice(&[0, 1]);
        sheet.tally = if set >> k & 1 == 1 { TOP } else { *rng.pick(&[0, TOP / 8, TOP / 2, TOP - 1]) };
    }
    bench
}

/// Every set of sheets at the top, and `earlier` at the top or not: an Add that
/// loses a block is refused there and nowhere else, one that loses none nowhere.
fn full_beside_others(s: &mut Suite) {
    let mut comparison = Comparison::new(s);
    for (set, earlier) in (0..256).flat_map(|set| [(set, 0), (set, TOP)]) {
        let bench = some_full(set, earlier, comparison.rng());
        for sheet in 0..8 {
            let mut joined = bench.clone();
            let full = bench.sheets[sheet].tally == TOP;
            if !full {
                joined.sheets[sheet].tally += 1;
                joined.sheets[sheet].map[1] = 0;
            }
            let due = [(if full { 13 } else { 0 }, joined), (0, bench.clone())];
            for (x, due) in due.into_iter().enumerate() {
                let pair = Pair { algebra: bare(2), sheet, x, y: 1 };
                let found = ask_add(&bench.image(), &pair, comparison.rng());
                comparison.compare(found, due, || format!("{pair:?}, at the top are {set:#b}: {bench:?}"));
            }
        }
    }
}

/// The old map is no congruence of this algebra, so that an equal pair loses a
/// block; and the bytes of an image, one by one. All sheets begin with the same
/// map, all tallies but one with 8 bytes of their number.
fn by_bytes(s: &mut Suite) {
    let shown = |sheet: usize, map: [u8; 4], tally: [u8; 8]| {
        let mut maps = [[0, 1, 0, 3]; 8];
        let mut tallies: [[u8; 8]; 8] = std::array::from_fn(|k| [k as u8; 8]);
        (maps[sheet], tallies[sheet]) = (map, tally);
        let maps: Vec<u8> = maps.iter().flat_map(|map| [&map[..], &[77; 60]].concat()).collect();
        [&maps[..], &[4], tallies.as_flattened(), &[9, 8, 7, 6, 5, 4, 3, 2], &[0; 8 * 577]].concat()
    };
    let u = Algebra { n: 4, arities: vec![1], cells: vec![1, 0, 3, 2] };
    let (old, new) = ([0, 1, 0, 3], [0, 1, 0, 1]);
    for (sheet, (before, number, after)) in (0..8).flat_map(|sheet| BYTES.map(|row| (sheet, row))) {
        let pair = Pair { algebra: u.clone(), sheet, x: 3, y: 3 };
        let found = ask_add(&shown(sheet, old, before), &pair, &mut s.rng);
        let map = if number == 0 { new } else { old };
        s.same("an equal pair", (found.number, found.untouched), (number, true));
        s.same("the image", found.image, shown(sheet, map, after));
        let found = ask_clear(&shown(sheet, old, before), sheet, &mut s.rng);
        s.same("clear", (found.number, found.untouched), (0, true));
        s.same("the image", found.image, shown(sheet, [0, 1, 2, 3], before));
    }
}

/// A tally's bytes, the number that a loss of one draws, and the bytes after it.
const BYTES: [([u8; 8], u32, [u8; 8]); 5] = [
    ([255, 255, 255, 255, 0, 0, 0, 0], 0, [0, 0, 0, 0, 1, 0, 0, 0]),
    ([255, 255, 255, 255, 255, 255, 255, 254], 0, [0, 0, 0, 0, 0, 0, 0, 255]),
    ([254, 255, 255, 255, 255, 255, 255, 255], 0, [255, 255, 255, 255, 255, 255, 255, 255]),
    ([255, 255, 255, 255, 255, 255, 255, 255], 13, [255, 255, 255, 255, 255, 255, 255, 255]),
    ([1, 2, 3, 4, 5, 6, 7, 8], 0, [2, 2, 3, 4, 5, 6, 7, 8]),
];

pub fn suites(run: &mut Run) {
    run.suite("probe: bench tally, edge by edge", edges);
    run.suite("probe: bench tally, full beside others", full_beside_others);
    run.suite("probe: bench tally, byte by byte", by_bytes);
}
