//! Document 02's promise for lists of calls without a Start on a bench that was
//! converted from the third kind: the nine numbers sum to the old total and the
//! blocks lost in accepted Adds since, and what was earlier stays. The sum is
//! formed of each image, with 128 bits; what an Add lost is seen in the sheet's
//! map before and after it. No other bench is at hand.

use std::collections::BTreeSet;

use outside_tests::random::Rng;
use outside_tests::reference::bench::{Bench, BenchV3, TOP};
use outside_tests::reference::map::blocks;
use outside_tests::report::{Run, Suite};

use super::calls::{ask_add, ask_clear, ask_convert, Found, Pair, PointCall, POINT_CALLS};
use super::images::{bench_in, Image, IMAGE};
use super::material::{some_bench_v3, some_name, some_sheet, some_tally};
use super::sequences::some_pair;

#[derive(Debug)]
enum Call {
    Add(Pair),
    Clear(usize),
    Point(PointCall, usize, [u8; 8]),
}

impl Call {
    fn some(n: usize, limit: usize, rng: &mut Rng) -> Call {
        match rng.below(8) {
            0 => Call::Clear(some_sheet(rng)),
            1..=4 => Call::Add(some_pair(n, limit, rng)),
            _ => Call::Point(*rng.pick(&POINT_CALLS), some_sheet(rng), some_name(rng)),
        }
    }

    fn ask(&self, image: &[u8], rng: &mut Rng) -> Found {
        match self {
            Call::Add(pair) => ask_add(image, pair, rng),
            Call::Clear(sheet) => ask_clear(image, *sheet, rng),
            Call::Point(call, sheet, name) => call.ask(image, *sheet, name, rng),
        }
    }

    /// The blocks lost, if the call is an Add that was accepted.
    fn lost(&self, number: u32, before: &Bench, after: &Bench) -> u128 {
        match self {
            Call::Add(pair) if number == 0 => {
                let count = |bench: &Bench| blocks(&bench.sheets[pair.sheet].map[..bench.n]) as u128;
                count(before) - count(after)
            }
            _ => 0,
        }
    }
}

fn nine(bench: &Bench) -> u128 {
    bench.sheets.iter().map(|sheet| u128::from(sheet.tally)).sum::<u128>() + u128::from(bench.earlier)
}

/// Totals at the top, near it and elsewhere.
fn some_old(n: usize, rng: &mut Rng) -> BenchV3 {
    let mut old = some_bench_v3(n, rng);
    if rng.once_in(3) {
        old.tally = TOP;
    }
    old
}

/// The converted bench: nothing is tallied but the old total.
fn converted(s: &mut Suite, old: &BenchV3) -> Bench {
    let lent = s.rng.bytes(IMAGE);
    let found = ask_convert(&old.image(), &lent, &mut s.rng);
    let bench = bench_in(&found.image);
    s.same("accepted", (found.number, found.untouched), (0, true));
    s.same("the sum of the nine", nine(&bench), u128::from(old.tally));
    s.same("earlier", bench.earlier, old.tally);
    bench
}

/// A list so long that sheets have come near their tops is not played: they are
/// put there.
fn long_in_use(n: usize, bench: &mut Bench, rng: &mut Rng) {
    for sheet in &mut bench.sheets {
        sheet.tally = if rng.once_in(2) { TOP - rng.below(2 * n) as u64 } else { some_tally(n, rng) };
    }
}

/// Plays a list and looks at the sum after every call.
fn play(s: &mut Suite, old: &BenchV3, limit: usize, seen: &mut BTreeSet<u32>) {
    let mut bench = converted(s, old);
    if s.rng.once_in(2) {
        long_in_use(old.n, &mut bench, &mut s.rng);
    }
    let mut due = nine(&bench);
    for _ in 0..25 {
        let call = Call::some(old.n, limit, &mut s.rng);
        let found = call.ask(&bench.image(), &mut s.rng);
        let after = bench_in(&found.image);
        due += call.lost(found.number, &bench, &after);
        let good = nine(&after) == due && after.earlier == old.tally && found.untouched;
        s.check(good, || {
            format!(
                "  {call:?}: {}, the nine sum to {} and not {due}, the old total is {}\n  before {bench:?}\n  after  {after:?}",
                found.number,
                nine(&after),
                old.tally
            )
        });
        if !good {
            return;
        }
        seen.insert(found.number);
        bench = after;
    }
}

fn sums(s: &mut Suite) {
    let mut seen = BTreeSet::new();
    let mut passed_top = 0;
    for round in 0..6_000 {
        let limit = if round % 30 == 0 { 64 } else { 7 };
        let n = s.rng.within(1, limit);
        let old = some_old(n, &mut s.rng);
        play(s, &old, limit, &mut seen);
        passed_top += (old.tally == TOP) as u32;
        if s.is_over() {
            return;
        }
    }
    s.check(passed_top > 100, || format!("  only {passed_top} totals were at the top"));
    for number in [0, 1, 2, 3, 4, 5, 6, 7, 8, 13, 15, 16] {
        s.check(seen.contains(&number), || format!("  no case with reason {number}"));
    }
}

pub fn suites(run: &mut Run) {
    run.suite("probe: bench tally, the sum of the nine", sums);
}
