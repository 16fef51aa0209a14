//! Document 02's promise that the sheets of a bench do not meet: an Add to one of
//! them, refused or not, gives the same answer and leaves that sheet with the same
//! map, points and tally, whatever the other seven hold and whatever was earlier.
//! Each Add is made on two benches that share n and that sheet alone; nothing else
//! says here what is due.

use std::collections::BTreeMap;

use outside_tests::algebras;
use outside_tests::random::Rng;
use outside_tests::reference::algebra::{reason, Algebra};
use outside_tests::reference::bench::{Bench, TOP};
use outside_tests::report::{Run, Suite};

use super::calls::{ask_add, Found, Pair};
use super::images::{bench_in, Image};
use super::material::some_bench;
use super::sequences::some_pair;

/// A bench without faults, of which sometimes every tally is at the top or at 0.
fn some_shared(n: usize, rng: &mut Rng) -> Bench {
    let mut bench = some_bench(n, rng);
    let tally = match rng.below(4) {
        0 => TOP,
        1 => 0,
        _ => return bench,
    };
    bench.sheets.iter_mut().for_each(|sheet| sheet.tally = tally);
    bench.earlier = tally;
    bench
}

/// Another bench with the same n and the same sheet.
fn beside(bench: &Bench, sheet: usize, rng: &mut Rng) -> Bench {
    let mut other = some_shared(bench.n, rng);
    other.sheets[sheet] = bench.sheets[sheet];
    other
}

/// An algebra that draws the number by itself.
fn damaged(number: u32, limit: usize, rng: &mut Rng) -> Algebra {
    loop {
        let algebra = algebras::sometimes_damaged(limit, 100, rng);
        if reason(algebra.n, &algebra.arities, &algebra.cells) == number {
            return algebra;
        }
    }
}

/// What an Add may be refused for: 1 to 6 by its algebra, 7 by an element, 8 by
/// another n than the bench's, 13 by a tally at the top.
fn refused(number: u32, bench: &mut Bench, pair: &mut Pair, rng: &mut Rng) {
    let n = bench.n;
    match number {
        7 if rng.once_in(2) => pair.x = n,
        7 => pair.y = *rng.pick(&[n, 64, 256, usize::MAX]),
        8 => *pair = Pair { algebra: algebras::bare(n - 1), sheet: pair.sheet, x: 0, y: 0 },
        13 => bench.sheets[pair.sheet].tally = TOP,
        _ => pair.algebra = damaged(number, 6, rng),
    }
}

/// The bench with the sheet of another: all else is to come back as it was.
fn with_sheet(bench: &Bench, sheet: usize, from: &Bench) -> Bench {
    let mut made = bench.clone();
    made.sheets[sheet] = from.sheets[sheet];
    made
}

fn compare(s: &mut Suite, pair: &Pair, benches: &[Bench; 2], found: &[Found; 2]) {
    let after = [bench_in(&found[0].image), bench_in(&found[1].image)];
    let same_answer = found[0].number == found[1].number;
    let same_sheet = after[0].sheets[pair.sheet] == after[1].sheets[pair.sheet];
    let others_stay = (0..2).all(|k| after[k] == with_sheet(&benches[k], pair.sheet, &after[0]));
    let untouched = found[0].untouched && found[1].untouched;
    s.check(same_answer && same_sheet && others_stay && untouched, || {
        format!(
            "  {pair:?}: {} and {}, the same sheet {same_sheet}, the others stay {others_stay}\n  on {benches:?}\n  left {after:?}",
            found[0].number, found[1].number
        )
    });
}

fn independence(s: &mut Suite) {
    let mut seen = BTreeMap::new();
    for round in 0..12_000 {
        let limit = if round % 30 == 0 { 64 } else { 7 };
        let n = s.rng.within(2, limit);
        let mut bench = some_shared(n, &mut s.rng);
        let mut pair = some_pair(n, limit, &mut s.rng);
        pair.sheet = s.rng.below(8);
        if s.rng.once_in(3) {
            let number = *s.rng.pick(&[1, 2, 3, 4, 5, 6, 7, 8, 13]);
            refused(number, &mut bench, &mut pair, &mut s.rng);
        }
        let other = beside(&bench, pair.sheet, &mut s.rng);
        let benches = [bench, other];
        let found = [0, 1].map(|k: usize| ask_add(&benches[k].image(), &pair, &mut s.rng));
        compare(s, &pair, &benches, &found);
        *seen.entry(found[0].number).or_insert(0) += 1;
        if s.is_over() {
            return;
        }
    }
    for number in [0, 1, 2, 3, 4, 5, 6, 7, 8, 13] {
        let times = seen.get(&number).copied().unwrap_or(0);
        s.check(times > 50, || format!("  only {times} cases with {number}"));
    }
}

pub fn suites(run: &mut Run) {
    run.suite("probe: bench tally, sheets do not meet", independence);
}
