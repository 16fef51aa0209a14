//! The bench's calls, which only the probe makes callable (tests/PROBE.md),
//! against the reference: the number that comes back and every byte of the
//! image, with guard bytes around each slice.

mod calls;
mod conversions;
mod edges;
mod faults;
mod images;
mod independence;
mod lengths;
mod lessons;
mod material;
mod points;
mod sequences;
mod sums;
mod third_kind;

use outside_tests::random::Rng;
use outside_tests::reference::algebra::Algebra;
use outside_tests::reference::bench::{self, Bench, BenchV1, BenchV2, BenchV3, Name};
use outside_tests::reference::plain::Plain;
use outside_tests::reference::service::Reference;
use outside_tests::report::{Run, Suite};

use calls::{ask_add, ask_clear, ask_convert, ask_start, Found, Pair, PointCall};
use images::{Image, IMAGE, IMAGE_V2, IMAGE_V3};

struct Comparison<'a> {
    suite: &'a mut Suite,
    reference: Reference<Plain>,
    /// How often each number was due.
    seen: [u32; 256],
}

/// Each call gives what is due: the number, and the bench to go on with.
impl<'a> Comparison<'a> {
    fn new(suite: &'a mut Suite) -> Comparison<'a> {
        Comparison { suite, reference: Reference::default(), seen: [0; 256] }
    }

    fn rng(&mut self) -> &mut Rng {
        &mut self.suite.rng
    }

    fn compare<B: Image>(&mut self, found: Found, due: (u32, B), call: impl FnOnce() -> String) -> (u32, B) {
        let expected = Found { number: due.0, image: due.1.image(), untouched: true };
        self.seen[due.0 as usize] += 1;
        self.suite.check(found == expected, || {
            let place = found.image.iter().zip(&expected.image).position(|(a, b)| a != b);
            format!(
                "  {} and not {}; the first byte that differs: {place:?}\n  {}\n  found    {found:?}\n  expected {expected:?}",
                found.number,
                expected.number,
                call()
            )
        });
        due
    }

    fn start(&mut self, n: usize) -> (u32, Bench) {
        let lent = self.rng().bytes(IMAGE);
        let found = ask_start(n, &lent, self.rng());
        self.compare(found, bench::start(n), || format!("start {n}, lent {lent:?}"))
    }

    fn convert_v1(&mut self, old: &BenchV1) -> (u32, BenchV2) {
        let lent = self.rng().bytes(IMAGE_V2);
        let found = ask_convert(&old.image(), &lent, self.rng());
        self.compare(found, bench::convert_v1(old), || format!("convert {old:?}, lent {lent:?}"))
    }

    fn convert_v2(&mut self, old: &BenchV2) -> (u32, BenchV3) {
        let lent = self.rng().bytes(IMAGE_V3);
        let found = ask_convert(&old.image(), &lent, self.rng());
        self.compare(found, bench::convert_v2(old), || format!("convert {old:?}, lent {lent:?}"))
    }

    fn convert_v3(&mut self, old: &BenchV3) -> (u32, Bench) {
        let lent = self.rng().bytes(IMAGE);
        let found = ask_convert(&old.image(), &lent, self.rng());
        self.compare(found, bench::convert_v3(old), || format!("convert {old:?}, lent {lent:?}"))
    }

    fn add(&mut self, bench: &Bench, pair: &Pair) -> (u32, Bench) {
        let Pair { algebra, sheet, x, y } = pair;
        let found = ask_add(&bench.image(), pair, self.rng());
        let Algebra { n, arities, cells } = algebra;
        let due = bench::add(&mut self.reference, bench, *n, arities, cells, *sheet, *x, *y);
        self.compare(found, due, || format!("add {pair:?} to {bench:?}"))
    }

    fn clear(&mut self, bench: &Bench, sheet: usize) -> (u32, Bench) {
        let found = ask_clear(&bench.image(), sheet, self.rng());
        self.compare(found, bench::clear(bench, sheet), || format!("clear {sheet} of {bench:?}"))
    }

    fn point(&mut self, call: PointCall, bench: &Bench, sheet: usize, name: Name) -> (u32, Bench) {
        let found = call.ask(&bench.image(), sheet, &name, self.rng());
        let due = match call {
            PointCall::Set => bench::set_point(bench, sheet, name),
            PointCall::Return => bench::return_to(bench, sheet, name),
            PointCall::Forget => bench::forget(bench, sheet, name),
        };
        self.compare(found, due, || format!("{call:?} {name:?} on sheet {sheet} of {bench:?}"))
    }

    /// Each of the numbers was due at some call.
    fn must_have_seen(&mut self, numbers: &[usize]) {
        for &number in numbers {
            self.suite.check(self.seen[number] > 0, || format!("  no case with reason {number}"));
        }
    }
}

fn starts(s: &mut Suite) {
    let mut comparison = Comparison::new(s);
    for n in (0..=300).chain([1 << 16, 1 << 32, usize::MAX]) {
        comparison.start(n);
    }
}

pub fn suites(run: &mut Run) {
    run.suite("probe: bench start", starts);
    edges::suites(run);
    sums::suites(run);
    independence::suites(run);
    points::suites(run);
    faults::suites(run);
    sequences::suites(run);
    lessons::suites(run);
    conversions::suites(run);
    third_kind::suites(run);
    lengths::suites(run);
}
