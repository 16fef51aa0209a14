//! One call each, with guard bytes around every slice.

use outside_tests::random::Rng;
use outside_tests::reference::algebra::Algebra;

use crate::compare::Guarded;
use crate::ffi::probe;

/// What an Add takes beside the bench.
#[derive(Clone, Debug)]
pub struct Pair {
    pub algebra: Algebra,
    pub sheet: usize,
    pub x: usize,
    pub y: usize,
}

/// The calls that take a sheet and a name.
#[derive(Clone, Copy, Debug, PartialEq)]
pub enum PointCall {
    Set,
    Return,
    Forget,
}

pub const POINT_CALLS: [PointCall; 3] = [PointCall::Set, PointCall::Return, PointCall::Forget];

/// What a call left, and whether it left all else alone.
#[derive(Debug, PartialEq)]
pub struct Found {
    pub number: u32,
    pub image: Vec<u8>,
    pub untouched: bool,
}

/// Lends a call the image.
fn lend(image: &[u8], rng: &mut Rng, call: impl FnOnce(*mut u8, usize) -> u32) -> Found {
    let mut lent = Guarded::new(image, rng);
    let number = call(lent.pointer(), lent.len());
    Found { number, image: lent.content(), untouched: lent.is_intact_around() }
}

pub fn ask_start(n: usize, image: &[u8], rng: &mut Rng) -> Found {
    lend(image, rng, |bytes, length| unsafe { probe::probe_bench_start(n, bytes, length) })
}

pub fn ask_clear(image: &[u8], sheet: usize, rng: &mut Rng) -> Found {
    lend(image, rng, |bytes, length| unsafe { probe::probe_bench_clear(bytes, length, sheet) })
}

pub fn ask_add(image: &[u8], pair: &Pair, rng: &mut Rng) -> Found {
    let Algebra { n, arities, cells } = &pair.algebra;
    let (mut arities, mut cells) = (Guarded::new(arities, rng), Guarded::new(cells, rng));
    let (a, al, c, cl) = (arities.pointer(), arities.len(), cells.pointer(), cells.len());
    let mut found = lend(image, rng, |bytes, length| unsafe {
        probe::probe_bench_add(bytes, length, *n, a, al, c, cl, pair.sheet, pair.x, pair.y)
    });
    found.untouched &= arities.is_intact() && cells.is_intact();
    found
}

impl PointCall {
    pub fn function(self) -> unsafe extern "C" fn(*mut u8, usize, usize, *const u8, usize) -> u32 {
        match self {
            PointCall::Set => probe::probe_bench_set,
            PointCall::Return => probe::probe_bench_return,
            PointCall::Forget => probe::probe_bench_forget,
        }
    }

    /// The name's length is for the call to judge.
    pub fn ask(self, image: &[u8], sheet: usize, name: &[u8], rng: &mut Rng) -> Found {
        let mut given = Guarded::new(name, rng);
        let (name_bytes, name_length) = (given.pointer(), given.len());
        let mut found = lend(image, rng, |bytes, length| unsafe {
            self.function()(bytes, length, sheet, name_bytes, name_length)
        });
        found.untouched &= given.is_intact();
        found
    }
}

pub fn ask_convert(old: &[u8], image: &[u8], rng: &mut Rng) -> Found {
    let mut given = Guarded::new(old, rng);
    let (old_bytes, old_length) = (given.pointer(), given.len());
    let mut found = lend(image, rng, |bytes, length| unsafe {
        probe::probe_bench_convert(old_bytes, old_length, bytes, length)
    });
    found.untouched &= given.is_intact();
    found
}
