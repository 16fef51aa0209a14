//! Benches whose points are faulty, on each sheet and in each place, and benches
//! where only a free place or a byte past n would be: every call of the bench
//! must tell them apart, and so must the conversion of a bench from before the
//! tallies.

use outside_tests::algebras::bare;
use outside_tests::random::Rng;
use outside_tests::reference::bench::Bench;
use outside_tests::report::{Run, Suite};

use super::calls::{Pair, POINT_CALLS};
use super::material::{
    before_tallies, faults, put_fault, scribble, sheet_with, some_bench, some_name, NAMES, SIZES,
};
use super::Comparison;

/// A count above eight, often the least one.
fn some_large_count(rng: &mut Rng) -> usize {
    if rng.once_in(3) {
        9
    } else {
        rng.within(9, 255)
    }
}

/// Points that no call gave.
pub fn spoil_points(bench: &mut Bench, rng: &mut Rng) {
    let (n, place, other) = (bench.n.clamp(1, 64), rng.below(8), rng.below(8));
    let sheet = &mut bench.sheets[rng.below(8)];
    match rng.below(6) {
        0 => sheet.count = some_large_count(rng),
        1 => sheet.count = rng.below(9),
        2 => sheet.points[place].name = sheet.points[other].name,
        3 => sheet.points[place].map[rng.below(n)] = rng.byte(),
        4 => scribble(n, &mut sheet.points[place].map, rng),
        _ => sheet.points[place] = sheet.points[other],
    }
}

/// Every call of the bench on a random sheet, with names that are held there or
/// not, and a conversion: all must draw 8, or none. Behind the last sheet it is 7.
fn try_calls(comparison: &mut Comparison, bench: &Bench, faulty: bool) {
    let n = bench.n;
    let (sheet, x, y) = (comparison.rng().below(8), comparison.rng().below(n), comparison.rng().below(n));
    let mut drawn = vec![
        comparison.clear(bench, sheet).0,
        comparison.add(bench, &Pair { algebra: bare(n), sheet, x, y }).0,
        comparison.convert_v3(&before_tallies(bench)).0,
    ];
    let mut name = some_name(comparison.rng());
    for call in POINT_CALLS {
        if !comparison.rng().once_in(4) {
            name = comparison.rng().pick(&bench.sheets[sheet].points).name;
        }
        drawn.push(comparison.point(call, bench, sheet, name).0);
    }
    let told = drawn.iter().all(|&number| (number == 8) == faulty);
    comparison.suite.check(told, || format!("  the reference draws {drawn:?}: {bench:?}"));
    let call = *comparison.rng().pick(&POINT_CALLS);
    let (behind, _) = comparison.point(call, bench, 8, name);
    comparison.suite.same("behind the last sheet", behind, 7);
}

/// A bench whose sheet has so many points.
fn bench_with(n: usize, sheet: usize, count: usize, rng: &mut Rng) -> Bench {
    let mut bench = some_bench(n, rng);
    bench.sheets[sheet] = sheet_with(n, bench.sheets[sheet].map, count, rng);
    bench
}

/// Each of the sheets at each size, until there is nothing new to see.
fn everywhere(s: &mut Suite, try_there: impl Fn(&mut Comparison, usize, usize)) {
    let mut comparison = Comparison::new(s);
    for n in SIZES {
        for sheet in 0..8 {
            try_there(&mut comparison, n, sheet);
            if comparison.suite.is_over() {
                return;
            }
        }
    }
}

/// Counts over eight good places: small ones, and each of the others on one of
/// the sheets.
fn counts(comparison: &mut Comparison, n: usize, sheet: usize) {
    let mut bench = bench_with(n, sheet, 8, comparison.rng());
    for count in (0..=255).filter(|count| *count < 12 || count % 8 == sheet) {
        bench.sheets[sheet].count = count;
        try_calls(comparison, &bench, count > 8);
    }
}

/// Each kind of fault in the map of some place, and one in each place: no fault
/// where the place is free.
fn maps(comparison: &mut Comparison, n: usize, sheet: usize) {
    for fault in faults(n) {
        let place = comparison.rng().below(8);
        for count in [place, place + 1] {
            let mut bench = bench_with(n, sheet, count, comparison.rng());
            put_fault(n, &mut bench.sheets[sheet].points[place].map, &fault);
            try_calls(comparison, &bench, place < count);
        }
    }
    for place in 0..8 {
        let mut bench = bench_with(n, sheet, place + 1, comparison.rng());
        bench.sheets[sheet].points[place].map[0] = 1;
        try_calls(comparison, &bench, true);
        bench.sheets[sheet].count = place;
        try_calls(comparison, &bench, false);
    }
}

/// A byte past n is no fault, whatever it is.
fn past_n(comparison: &mut Comparison, n: usize, sheet: usize) {
    for at in (n..64).step_by(9).chain([63]).filter(|&at| at >= n) {
        for byte in [0, 1, at - 1, at + 1, n, 63, 64, 255] {
            let place = comparison.rng().below(8);
            let mut bench = bench_with(n, sheet, 8, comparison.rng());
            bench.sheets[sheet].points[place].map[at] = byte as u8;
            try_calls(comparison, &bench, false);
        }
    }
    let mut bench = bench_with(n, sheet, 8, comparison.rng());
    bench.sheets[sheet].points.iter_mut().for_each(|point| scribble(n, &mut point.map, comparison.rng()));
    try_calls(comparison, &bench, false);
}

/// One name in each two places: no fault where one of them is free, nor where
/// they are on two sheets, nor where one byte differs.
fn names(comparison: &mut Comparison, n: usize, sheet: usize) {
    for (first, second) in (1..8).flat_map(|second| (0..second).map(move |first| (first, second))) {
        for count in [second, second + 1] {
            let mut bench = bench_with(n, sheet, count, comparison.rng());
            let points = &mut bench.sheets[sheet].points;
            points[second].name = points[first].name;
            try_calls(comparison, &bench, second < count);
            // No two names of NAMES differ so.
            bench.sheets[sheet].points[second].name[comparison.rng().below(8)] ^= 0xA4;
            try_calls(comparison, &bench, false);
        }
    }
    let mut bench = bench_with(n, sheet, 8, comparison.rng());
    bench.sheets[(sheet + 1) % 8].points = bench.sheets[sheet].points;
    bench.sheets[(sheet + 1) % 8].count = 8;
    try_calls(comparison, &bench, false);
}

/// One fault of any kind on a sheet.
fn spoil_surely(bench: &mut Bench, sheet: usize, rng: &mut Rng) {
    let (n, place) = (bench.n, rng.below(7));
    let count = rng.within(place + 1, 8);
    bench.sheets[sheet] = sheet_with(n, bench.sheets[sheet].map, count, rng);
    let fault = rng.pick(&faults(n)).clone();
    let sheet = &mut bench.sheets[sheet];
    match rng.below(4) {
        0 => sheet.count = some_large_count(rng),
        1 => put_fault(n, &mut sheet.points[place].map, &fault),
        2 => put_fault(n, &mut sheet.map, &fault),
        _ => {
            sheet.count = count.max(place + 2);
            sheet.points[place + 1].name = sheet.points[place].name;
            sheet.points[place + 1].map = sheet.points[place].map;
        }
    }
}

/// Two faults on two sheets; and such a bench with a size that is none, which is
/// 1 in every call but an Add.
fn two_at_once(comparison: &mut Comparison, n: usize, sheet: usize) {
    for other in (0..8).filter(|&other| other != sheet) {
        let mut bench = some_bench(n, comparison.rng());
        spoil_surely(&mut bench, sheet, comparison.rng());
        spoil_surely(&mut bench, other, comparison.rng());
        try_calls(comparison, &bench, true);
        bench.n = *comparison.rng().pick(&[0, 65, 128, 255]);
        let name = *comparison.rng().pick(&NAMES);
        for sheet in [sheet, 8] {
            let mut drawn = POINT_CALLS.map(|call| comparison.point(call, &bench, sheet, name).0).to_vec();
            drawn.push(comparison.clear(&bench, sheet).0);
            drawn.push(comparison.convert_v3(&before_tallies(&bench)).0);
            comparison.suite.same("1 goes before 7 and 8", drawn, vec![1; 5]);
        }
    }
}

pub fn suites(run: &mut Run) {
    run.suite("probe: bench faulty points, counts", |s| everywhere(s, counts));
    run.suite("probe: bench faulty points, maps", |s| everywhere(s, maps));
    run.suite("probe: bench faulty points, bytes past n", |s| everywhere(s, past_n));
    run.suite("probe: bench faulty points, names", |s| everywhere(s, names));
    run.suite("probe: bench faulty points, two at once", |s| everywhere(s, two_at_once));
}
