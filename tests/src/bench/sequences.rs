//! Lists of calls, each on the bench that the one before gave, which begin with
//! a Start, with an old bench's conversions, or with a bench that no call gave.

use outside_tests::algebras;
use outside_tests::random::Rng;
use outside_tests::reference::bench::{Bench, BenchV1, Maps, Name, OLD_TOP};
use outside_tests::report::{Run, Suite};

use super::calls::{Pair, POINT_CALLS};
use super::faults::spoil_points;
use super::material::{
    before_tallies, scribble, some_bench, some_bench_v1, some_bench_v2, some_name, some_sheet, some_tally,
};
use super::Comparison;

/// Maps and a size that no call gave.
fn spoil(n: &mut usize, maps: &mut Maps, rng: &mut Rng) {
    let (size, sheet, place) = ((*n).clamp(1, 64), rng.below(8), rng.below(64));
    match rng.below(5) {
        0 => *n = rng.below(256),
        1 => maps[sheet][place] = rng.byte(),
        2 => *n = 0,
        3 => maps.iter_mut().for_each(|map| scribble(size, map, rng)),
        _ => {
            let blocks = rng.within(1, size);
            maps[sheet][..size].copy_from_slice(&rng.map(size, blocks));
        }
    }
}

fn spoil_bench(bench: &mut Bench, rng: &mut Rng) {
    if rng.once_in(2) {
        return spoil_points(bench, rng);
    }
    let mut maps = bench.maps();
    spoil(&mut bench.n, &mut maps, rng);
    for (sheet, map) in bench.sheets.iter_mut().zip(maps) {
        sheet.map = map;
    }
}

fn old_bench(n: usize, rng: &mut Rng) -> BenchV1 {
    let mut old = some_bench_v1(n, rng);
    if rng.once_in(2) {
        old.tally = OLD_TOP as u32 - rng.below(2 * n + 2) as u32;
    }
    if rng.once_in(8) {
        spoil(&mut old.n, &mut old.maps, rng);
    }
    old
}

/// From the first kind in three steps, from the second in two, or from the third,
/// which has points and sometimes a fault.
fn converted(comparison: &mut Comparison, n: usize) -> Bench {
    let old = old_bench(n, comparison.rng());
    let mut second = comparison.convert_v1(&old).1;
    if comparison.rng().once_in(3) {
        second = some_bench_v2(n, comparison.rng());
    }
    let mut third = comparison.convert_v2(&second).1;
    if comparison.rng().once_in(2) {
        third = before_tallies(&made_up(comparison, n));
    }
    comparison.convert_v3(&third).1
}

fn started(comparison: &mut Comparison, n: usize) -> Bench {
    let (_, mut bench) = comparison.start(n);
    bench.earlier = some_tally(n, comparison.rng());
    bench.sheets.iter_mut().for_each(|sheet| sheet.tally = some_tally(n, comparison.rng()));
    bench
}

/// With points from the beginning; sometimes with one fault or two.
fn made_up(comparison: &mut Comparison, n: usize) -> Bench {
    let mut bench = some_bench(n, comparison.rng());
    let faults = comparison.rng().below(8).saturating_sub(5);
    (0..faults).for_each(|_| spoil_bench(&mut bench, comparison.rng()));
    bench
}

fn some_element(n: usize, rng: &mut Rng) -> usize {
    if rng.once_in(40) {
        *rng.pick(&[n, 64, 255, 256, 1 << 32, usize::MAX])
    } else {
        rng.below(n)
    }
}

/// A pair to add, under an algebra over n, or sometimes under any.
pub fn some_pair(n: usize, limit: usize, rng: &mut Rng) -> Pair {
    let (blocks, arities) = (rng.within(1, n), algebras::random_arities(n, 200, rng));
    let mut algebra = algebras::lifted(n, blocks, &arities, rng);
    if rng.once_in(15) {
        algebra = algebras::sometimes_damaged(limit, 200, rng);
    }
    Pair { algebra, sheet: some_sheet(rng), x: some_element(n, rng), y: some_element(n, rng) }
}

/// Often a name that the sheet holds, or has forgotten.
fn name_for(bench: &Bench, sheet: usize, rng: &mut Rng) -> Name {
    match bench.sheets.get(sheet) {
        Some(sheet) if rng.once_in(2) => rng.pick(&sheet.points).name,
        _ => some_name(rng),
    }
}

/// An Add, a Clear or a call of points.
pub fn some_call(comparison: &mut Comparison, bench: &Bench, n: usize, limit: usize) -> (u32, Bench) {
    let sheet = some_sheet(comparison.rng());
    match comparison.rng().below(10) {
        0 => comparison.clear(bench, sheet),
        1..=4 => {
            let pair = some_pair(n, limit, comparison.rng());
            comparison.add(bench, &pair)
        }
        _ => {
            let call = *comparison.rng().pick(&POINT_CALLS);
            let name = name_for(bench, sheet, comparison.rng());
            comparison.point(call, bench, sheet, name)
        }
    }
}

fn sequences(s: &mut Suite) {
    let mut comparison = Comparison::new(s);
    // How often a call carried into each byte of a tally.
    let mut carries = [0u32; 8];
    for round in 0..8_000 {
        let limit = if round % 30 == 0 { 64 } else { 6 };
        let n = comparison.rng().within(1, limit);
        let begin = [converted, started, made_up][round % 3];
        let mut bench = begin(&mut comparison, n);
        for _ in 0..20 {
            let (_, after) = some_call(&mut comparison, &bench, n, limit);
            for (k, count) in carries.iter_mut().enumerate() {
                let above = |bench: &Bench| bench.sheets.map(|sheet| sheet.tally >> (8 * k));
                *count += (above(&bench) != above(&after)) as u32;
            }
            bench = after;
        }
        if comparison.suite.is_over() {
            return;
        }
    }
    comparison.must_have_seen(&[0, 1, 2, 3, 4, 5, 6, 7, 8, 13, 15, 16]);
    let few = carries.iter().any(|&count| count < 20);
    s.check(!few, || format!("  too few calls carried into a byte of a tally: {carries:?}"));
}

pub fn suites(run: &mut Run) {
    run.suite("probe: bench lists of calls", sequences);
}
