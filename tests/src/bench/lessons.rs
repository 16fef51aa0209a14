//! Document 02's promise for lists of calls that begin with a Start and in which
//! every Start is accepted: which map each sheet has, which points with which
//! maps, and which tally, follow from the calls and from which of them were
//! accepted. Here they are looked for backwards through the list, with no bench
//! at hand, and compared with the image after every call.

use std::collections::{BTreeMap, BTreeSet};

use outside_tests::algebras;
use outside_tests::random::Rng;
use outside_tests::reference::algebra::Algebra;
use outside_tests::reference::bench::{Name, Sheet};
use outside_tests::reference::brute::Brute;
use outside_tests::reference::map::{blocks, identity, Map};
use outside_tests::reference::plain::Plain;
use outside_tests::reference::Engine;
use outside_tests::report::{Run, Suite};

use super::calls::{ask_add, ask_clear, ask_start, Found, Pair, PointCall};
use super::images::{bench_in, IMAGE};
use super::material::{some_name, some_sheet};
use Call::{Add, Clear, Point, Start};
use PointCall::{Forget, Return, Set};

/// One call; the algebra of an Add is one of the lesson's.
#[derive(Debug)]
enum Call {
    Start(usize),
    Add { algebra: usize, sheet: usize, x: usize, y: usize },
    Clear(usize),
    Point(PointCall, usize, Name),
}

/// The calls made so far, the latest last, and whether each was accepted.
type Made = [(Call, bool)];

fn latest(made: &Made) -> (&(Call, bool), &Made) {
    made.split_last().expect("a list begins with a Start")
}

fn size_after(made: &Made) -> usize {
    match latest(made) {
        ((Start(n), _), _) => *n,
        (_, before) => size_after(before),
    }
}

/// Whether the latest Set or Forget of the name on the sheet since Start is a
/// Set.
fn is_known(k: usize, name: Name, made: &Made) -> bool {
    match latest(made) {
        ((Start(_), _), _) => false,
        ((Point(Set, sheet, set), true), _) if (*sheet, *set) == (k, name) => true,
        ((Point(Forget, sheet, forgotten), true), _) if (*sheet, *forgotten) == (k, name) => false,
        (_, before) => is_known(k, name, before),
    }
}

/// The names known to a sheet.
fn known(k: usize, made: &Made) -> BTreeSet<Name> {
    let called = made.iter().filter_map(|(call, _)| match call {
        Point(_, _, name) => Some(*name),
        _ => None,
    });
    called.filter(|name| is_known(k, *name, made)).collect()
}

struct Lesson<E> {
    algebras: Vec<(Algebra, E)>,
    made: Vec<(Call, bool)>,
}

/// What follows from a list.
impl<E: Engine> Lesson<E> {
    fn map_after(&self, k: usize, made: &Made) -> Map {
        match latest(made) {
            ((Start(n), _), _) => identity(*n),
            ((Add { algebra, sheet, x, y }, true), before) if *sheet == k => {
                self.least_above(*algebra, &self.map_after(k, before), *x, *y)
            }
            ((Clear(sheet), true), before) if *sheet == k => identity(size_after(before)),
            ((Point(Return, sheet, name), true), before) if *sheet == k => self.set_after(k, *name, before),
            (_, before) => self.map_after(k, before),
        }
    }

    /// The sheet's map when the name was last set there.
    fn set_after(&self, k: usize, name: Name, made: &Made) -> Map {
        match latest(made) {
            ((Start(_), _), _) => panic!("{name:?} was never set on sheet {k}"),
            ((Point(Set, sheet, set), true), before) if (*sheet, *set) == (k, name) => {
                self.map_after(k, before)
            }
            (_, before) => self.set_after(k, name, before),
        }
    }

    /// The blocks that a sheet lost in accepted Adds since Start.
    fn lost_after(&self, k: usize, made: &Made) -> u64 {
        match latest(made) {
            ((Start(_), _), _) => 0,
            ((Add { sheet, .. }, true), before) if *sheet == k => {
                let lost = blocks(&self.map_after(k, before)) - blocks(&self.map_after(k, made));
                self.lost_after(k, before) + lost as u64
            }
            (_, before) => self.lost_after(k, before),
        }
    }

    fn least_above(&self, algebra: usize, map: &[u8], x: usize, y: usize) -> Map {
        let mut pairs: Vec<_> = map.iter().enumerate().map(|(e, first)| (e, *first as usize)).collect();
        pairs.push((x, y));
        self.algebras[algebra].1.least(&pairs)
    }

    /// The number that a call draws after the list; no tally of it comes near
    /// the top, and every algebra is accepted.
    fn number_due(&self, call: &Call) -> u32 {
        let made = &self.made;
        match call {
            Start(_) => 0,
            Add { sheet, algebra, x, y } => {
                let n = self.algebras[*algebra].0.n;
                if *sheet > 7 || *x >= n || *y >= n {
                    7
                } else if n != size_after(made) {
                    8
                } else {
                    0
                }
            }
            Clear(sheet) | Point(_, sheet, _) if *sheet > 7 => 7,
            Clear(_) => 0,
            Point(_, sheet, name) if is_known(*sheet, *name, made) => 0,
            Point(Set, sheet, _) if known(*sheet, made).len() < 8 => 0,
            Point(Set, ..) => 16,
            Point(..) => 15,
        }
    }
}

/// A sheet's points by their names.
fn points_of(sheet: &Sheet, n: usize) -> BTreeMap<Name, Map> {
    let places = sheet.points.iter().take(sheet.count);
    places.map(|point| (point.name, point.map[..n].to_vec())).collect()
}

/// The list played on images.
impl<E: Engine> Lesson<E> {
    fn ask(&self, call: &Call, image: &[u8], rng: &mut Rng) -> Found {
        match call {
            Start(n) => ask_start(*n, image, rng),
            Add { algebra, sheet, x, y } => {
                let algebra = self.algebras[*algebra].0.clone();
                ask_add(image, &Pair { algebra, sheet: *sheet, x: *x, y: *y }, rng)
            }
            Clear(sheet) => ask_clear(image, *sheet, rng),
            Point(call, sheet, name) => call.ask(image, *sheet, name, rng),
        }
    }

    /// Whether the image shows what follows from the list.
    fn is_shown(&self, image: &[u8]) -> bool {
        let (bench, made, n) = (bench_in(image), &self.made, size_after(&self.made));
        let right = |(k, sheet): (usize, &Sheet)| {
            let points: BTreeMap<Name, Map> =
                known(k, made).into_iter().map(|name| (name, self.set_after(k, name, made))).collect();
            sheet.map[..n] == self.map_after(k, made)
                && sheet.tally == self.lost_after(k, made)
                && sheet.count == points.len()
                && points_of(sheet, n) == points
        };
        bench.n == n && bench.earlier == 0 && bench.sheets.iter().enumerate().all(right)
    }

    /// Makes the call on the image and gives what it left; none if the answer is
    /// a wrong one, from which nothing follows.
    fn step(&mut self, call: Call, image: &[u8], seen: &mut BTreeSet<u32>, s: &mut Suite) -> Option<Vec<u8>> {
        let due = self.number_due(&call);
        let found = self.ask(&call, image, &mut s.rng);
        let answered = found.number == due && found.untouched;
        s.check(answered, || {
            format!("  {call:?} after {:?}: {} and not {due}; {:?}", self.made, found.number, self.shown())
        });
        if !answered {
            return None;
        }
        seen.insert(due);
        self.made.push((call, found.number == 0));
        s.check(self.is_shown(&found.image), || {
            format!("  after {:?}; {:?}\n  found {:?}", self.made, self.shown(), bench_in(&found.image))
        });
        Some(found.image)
    }

    fn shown(&self) -> Vec<&Algebra> {
        self.algebras.iter().map(|(algebra, _)| algebra).collect()
    }
}

/// What a class does: two sizes, three algebras over each, two sheets in use, and
/// how often a point is set.
struct Class {
    sizes: [usize; 2],
    sheets: [usize; 2],
    sets: usize,
}

impl Class {
    fn some(limit: usize, rng: &mut Rng) -> Class {
        Class {
            sizes: [rng.within(1, limit), rng.within(1, limit)],
            sheets: [rng.below(8), rng.below(8)],
            sets: rng.within(1, 8),
        }
    }

    fn algebras<E: Engine>(&self, rng: &mut Rng) -> Vec<(Algebra, E)> {
        let some = |k: usize| {
            let n = self.sizes[k % 2];
            let (blocks, arities) = (rng.within(1, n), algebras::random_arities(n, 100, rng));
            let algebra = algebras::lifted(n, blocks, &arities, rng);
            let engine = E::new(&algebra);
            (algebra, engine)
        };
        (0..6).map(some).collect()
    }

    fn call(&self, n: usize, rng: &mut Rng) -> Call {
        let sheet = if rng.once_in(4) { some_sheet(rng) } else { *rng.pick(&self.sheets) };
        match rng.below(12 + self.sets) {
            0 if rng.once_in(4) => Start(*rng.pick(&self.sizes)),
            0 | 1 => Clear(sheet),
            2..=5 => {
                // An element too many, sometimes.
                let most = n + rng.once_in(20) as usize;
                Add { algebra: rng.below(6), sheet, x: rng.below(n), y: rng.below(most) }
            }
            6..=8 => Point(Return, sheet, some_name(rng)),
            9 | 10 => Point(Forget, sheet, some_name(rng)),
            _ => Point(Set, sheet, some_name(rng)),
        }
    }
}

fn lessons<E: Engine>(s: &mut Suite, limit: usize, times: usize) {
    let mut seen = BTreeSet::new();
    for _ in 0..times {
        let class = Class::some(limit, &mut s.rng);
        let mut lesson = Lesson::<E> { algebras: class.algebras(&mut s.rng), made: Vec::new() };
        let mut call = Start(class.sizes[0]);
        let mut image = s.rng.bytes(IMAGE);
        for _ in 0..50 {
            let Some(left) = lesson.step(call, &image, &mut seen, s) else {
                break;
            };
            image = left;
            call = class.call(size_after(&lesson.made), &mut s.rng);
        }
        if s.is_over() {
            return;
        }
    }
    for number in [0, 7, 8, 15, 16] {
        s.check(seen.contains(&number), || format!("  no case with reason {number}"));
    }
}

pub fn suites(run: &mut Run) {
    run.suite("probe: bench lessons, by brute force", |s| lessons::<Brute>(s, 4, 600));
    run.suite("probe: bench lessons, plain", |s| lessons::<Plain>(s, 9, 600));
    run.suite("probe: bench lessons, up to 64 elements", |s| lessons::<Plain>(s, 64, 100));
}
