//! Images and names of another length: each call answers 255 and writes nothing.

use std::ptr::{null, null_mut};

use outside_tests::algebras::bare;
use outside_tests::report::{Run, Suite};

use super::calls::{ask_add, ask_clear, ask_convert, ask_start, Found, Pair, PointCall, POINT_CALLS};
use super::images::{Image, IMAGE, IMAGE_V1, IMAGE_V2, IMAGE_V3};
use super::material::{some_bench, some_bench_v3, some_name};
use crate::ffi::probe;

/// The kinds' own lengths, those next to them, and those of parts.
const LENGTHS: [usize; 29] = [
    0, 1, 512, 513, 516, 517, 518, 519, 520, 521, 522, 525, 529, 577, 585, 1042, 4560, 4616, 5129, 5136,
    5137, 5138, 5145, 5200, 5201, 5202, 5209, 10274, 10402,
];

const NAME_LENGTHS: [usize; 10] = [0, 1, 4, 7, 8, 9, 15, 16, 64, 72];

fn check(s: &mut Suite, what: &str, found: Found, lent: &[u8]) {
    let good = found.number == 255 && found.image == lent && found.untouched;
    s.check(good, || format!("  {what}, {} bytes\n  lent  {lent:?}\n  found {found:?}", lent.len()));
}

/// The same bytes, cut or with any bytes behind them.
fn of_length(bytes: &[u8], length: usize, s: &mut Suite) -> Vec<u8> {
    [bytes, &s.rng.bytes(length)].concat()[..length].to_vec()
}

/// The length of the image goes before 1 and 7.
fn calls(s: &mut Suite) {
    for length in LENGTHS.into_iter().filter(|&length| length != IMAGE) {
        for n in [0, 2, 3, 64, 65] {
            let good = some_bench(n.clamp(1, 64), &mut s.rng).image();
            let lent = of_length(&good, length, s);
            let found = ask_start(n, &lent, &mut s.rng);
            check(s, &format!("start {n}"), found, &lent);
            for sheet in [0, 7, 8] {
                let found = ask_clear(&lent, sheet, &mut s.rng);
                check(s, &format!("clear {sheet}"), found, &lent);
                let pair = Pair { algebra: bare(n), sheet, x: 0, y: 1 };
                let found = ask_add(&lent, &pair, &mut s.rng);
                check(s, &format!("add {pair:?}"), found, &lent);
                for call in POINT_CALLS {
                    try_name(s, call, &lent, sheet, 8);
                }
            }
        }
    }
    s.same("start, no image", unsafe { probe::probe_bench_start(2, null_mut(), 0) }, 255);
    s.same("clear, no image", unsafe { probe::probe_bench_clear(null_mut(), 0, 0) }, 255);
    let added = unsafe { probe::probe_bench_add(null_mut(), 0, 2, null(), 0, null(), 0, 0, 0, 1) };
    s.same("add, no image", added, 255);
    for call in POINT_CALLS {
        let found = unsafe { call.function()(null_mut(), 0, 0, [0; 8].as_ptr(), 8) };
        s.same("a name and no image", found, 255);
        s.same("neither", unsafe { call.function()(null_mut(), 0, 0, null(), 0) }, 255);
    }
}

/// A name of this length, where the image or the name has another than its own.
fn try_name(s: &mut Suite, call: PointCall, image: &[u8], sheet: usize, length: usize) {
    let name = some_name(&mut s.rng);
    let given = of_length(&name, length, s);
    let found = call.ask(image, sheet, &given, &mut s.rng);
    check(s, &format!("{call:?} {given:?}, sheet {sheet}"), found, image);
}

/// The length of the name goes before 1, 7 and 8; and is no cause where the
/// image is of another length anyhow.
fn names(s: &mut Suite) {
    for length in NAME_LENGTHS.into_iter().filter(|&length| length != 8) {
        for call in POINT_CALLS {
            let zeros = vec![0; IMAGE];
            let mut bench = some_bench(5, &mut s.rng);
            let good = bench.image();
            bench.sheets[3].count = 9;
            for image in [&good, &bench.image(), &zeros, &good[..IMAGE_V2].to_vec()] {
                for sheet in [0, 7, 8, usize::MAX] {
                    try_name(s, call, image, sheet, length);
                }
            }
        }
    }
}

/// The lengths of an old bench and of what it becomes.
const KINDS: [(usize, usize); 3] = [(IMAGE_V1, IMAGE_V2), (IMAGE_V2, IMAGE_V3), (IMAGE_V3, IMAGE)];

/// The lengths of the two images say which conversion is meant, and go before 1
/// and 8.
fn conversions(s: &mut Suite) {
    for old_length in LENGTHS {
        for length in LENGTHS {
            if KINDS.contains(&(old_length, length)) {
                continue;
            }
            for n in [0, 1, 4, 64, 65] {
                let mut old = some_bench_v3(n.clamp(1, 64), &mut s.rng);
                old.n = n;
                old.sheets[3].map[0] = s.rng.below(2) as u8;
                let given = of_length(&old.image(), old_length, s);
                let lent = s.rng.bytes(length);
                let found = ask_convert(&given, &lent, &mut s.rng);
                check(s, &format!("convert {old:?}, {old_length} bytes"), found, &lent);
            }
        }
    }
    one_image(s);
}

/// Where an image is none, the other one may be right.
fn one_image(s: &mut Suite) {
    let given = some_bench_v3(4, &mut s.rng).image();
    let lent = s.rng.bytes(IMAGE);
    let mut out = lent.clone();
    let convert = |old, old_length, image, length| unsafe {
        probe::probe_bench_convert(old, old_length, image, length)
    };
    s.same("neither image", convert(null(), 0, null_mut(), 0), 255);
    for (old_length, length) in KINDS {
        s.same("no old image", convert(null(), 0, out.as_mut_ptr(), length), 255);
        s.same("no new image", convert(given.as_ptr(), old_length, null_mut(), 0), 255);
    }
    s.same("nothing is written", out, lent);
}

pub fn suites(run: &mut Run) {
    run.suite("probe: bench lengths", calls);
    run.suite("probe: bench name lengths", names);
    run.suite("probe: bench conversion, lengths", conversions);
}
