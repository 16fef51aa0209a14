//! The edges of the points, written out: which place a Set, a Return or a Forget
//! takes, which bytes it changes, and what it refuses.

use outside_tests::algebras::bare;
use outside_tests::reference::bench::{Bench, Name, Point, Sheet};
use outside_tests::report::{Run, Suite};

use super::calls::{ask_add, ask_clear, Found, Pair, PointCall, POINT_CALLS};
use super::images::{changed, Image, IMAGE};
use super::material::some_tally;
use super::Comparison;
use PointCall::{Forget, Return, Set};

const TOP: u64 = 18_446_744_073_709_551_615;

/// No two of these names are near each other; the tests of one byte are apart.
const NAMES: [Name; 9] = [
    *b"first   ",
    *b"second  ",
    *b"third   ",
    *b"fourth  ",
    *b"fifth   ",
    *b"sixth   ",
    *b"seventh ",
    *b"eighth  ",
    *b"ninth   ",
];

/// Over four elements: eight maps, none of them the identity. A point's map has
/// its place in the bytes past n, a sheet's has 100 and its number.
const MAPS: [[u8; 4]; 8] = [
    [0, 0, 2, 3],
    [0, 1, 0, 3],
    [0, 1, 2, 0],
    [0, 1, 1, 3],
    [0, 1, 2, 1],
    [0, 1, 2, 2],
    [0, 0, 2, 2],
    [0, 0, 0, 0],
];

fn stored(map: [u8; 4], behind: u8) -> [u8; 64] {
    let mut bytes = [behind; 64];
    bytes[..4].copy_from_slice(&map);
    bytes
}

/// A point with the name and the map of that number, from 0.
fn point(k: usize) -> Point {
    Point { name: NAMES[k], map: stored(MAPS[k], k as u8) }
}

/// Four elements. Every sheet has a map and a tally of its own, the first one's
/// is the given one, and its eight places filled in order; so many of them are
/// held.
fn bench(count: usize, tally: u64) -> Bench {
    let points = std::array::from_fn(point);
    let sheet =
        |k: usize| Sheet { map: stored(MAPS[7 - k], 100 + k as u8), tally: tally ^ k as u64, count, points };
    Bench { n: 4, sheets: std::array::from_fn(sheet), earlier: !tally }
}

/// One call on each sheet, after which the bench must be what `change` makes of
/// it.
fn on_each_sheet(
    c: &mut Comparison,
    what: &str,
    bench: &Bench,
    number: u32,
    call: impl Fn(&mut Comparison, &[u8], usize) -> Found,
    change: impl Fn(&mut Bench, usize),
) {
    for sheet in 0..8 {
        let mut due = bench.clone();
        change(&mut due, sheet);
        let found = call(c, &bench.image(), sheet);
        c.compare(found, (number, due), || format!("{what}, sheet {sheet}"));
    }
}

/// The same of a call with a name, which changes its sheet alone.
fn named(
    c: &mut Comparison,
    what: &str,
    bench: &Bench,
    call: PointCall,
    name: Name,
    number: u32,
    change: impl Fn(&mut Sheet),
) {
    let ask = |c: &mut Comparison, image: &[u8], sheet: usize| call.ask(image, sheet, &name, c.rng());
    let what = format!("{call:?}: {what}");
    on_each_sheet(c, &what, bench, number, ask, |bench, sheet| change(&mut bench.sheets[sheet]));
}

fn same(_: &mut Sheet) {}

/// All eight places with each count before them.
fn places(s: &mut Suite) {
    let c = &mut Comparison::new(s);
    for count in 0..=8 {
        let tally = some_tally(4, c.rng());
        let bench = bench(count, tally);
        let stored_here = |sheet: &Sheet, k: usize| Point { name: NAMES[k], map: sheet.map };
        for k in 0..count {
            let what = format!("point {k} of {count}");
            named(c, &what, &bench, Set, NAMES[k], 0, |sheet| sheet.points[k] = stored_here(sheet, k));
            named(c, &what, &bench, Return, NAMES[k], 0, |sheet| sheet.map[..4].copy_from_slice(&MAPS[k]));
            named(c, &what, &bench, Forget, NAMES[k], 0, |sheet| {
                sheet.points[k] = point(count - 1);
                sheet.count = count - 1;
            });
        }
        // The names behind the count stand in free places, but for the ninth.
        for k in count..9 {
            let what = format!("name {k}, where {count} are held");
            named(c, &what, &bench, Return, NAMES[k], 15, same);
            named(c, &what, &bench, Forget, NAMES[k], 15, same);
            if count == 8 {
                named(c, &what, &bench, Set, NAMES[k], 16, same);
                continue;
            }
            named(c, &what, &bench, Set, NAMES[k], 0, |sheet| {
                sheet.points[count] = stored_here(sheet, k);
                sheet.count = count + 1;
            });
        }
    }
}

/// A place that is freed serves the next new name, whichever it was.
fn freed(s: &mut Suite) {
    let c = &mut Comparison::new(s);
    let full = bench(8, 5);
    for k in 0..8 {
        let free = |sheet: &mut Sheet| {
            sheet.points[k] = point(7);
            sheet.count = 7;
        };
        let fill = |name: Name| {
            move |sheet: &mut Sheet| {
                sheet.points[7] = Point { name, map: sheet.map };
                sheet.count = 8;
            }
        };
        let mut freed = full.clone();
        freed.sheets.iter_mut().for_each(free);
        named(c, "forgotten", &full, Forget, NAMES[k], 0, free);
        named(c, "forgotten twice", &freed, Forget, NAMES[k], 15, same);
        named(c, "gone", &freed, Return, NAMES[k], 15, same);
        named(c, "a ninth name, now an eighth", &freed, Set, NAMES[8], 0, fill(NAMES[8]));
        named(c, "the same name again", &freed, Set, NAMES[k], 0, fill(NAMES[k]));
    }
}

/// Names that are told apart by one bit of one byte; the point with the other
/// name is held, and must not be met.
fn near_names(s: &mut Suite) {
    let c = &mut Comparison::new(s);
    for name in [[0; 8], [255; 8], *b"ab\0cd\0e ", [1, 2, 3, 4, 5, 6, 7, 8]] {
        for (byte, bit) in (0..8).flat_map(|byte| (0..8).map(move |bit| (byte, bit))) {
            let mut near = name;
            near[byte] ^= 1 << bit;
            let (mut one, mut two) = (bench(1, 0), bench(2, 0));
            for sheet in one.sheets.iter_mut().chain(&mut two.sheets) {
                sheet.points[0].name = name;
                sheet.points[1].name = near;
            }
            named(c, "near", &one, Return, near, 15, same);
            named(c, "near", &one, Forget, near, 15, same);
            named(c, "near", &one, Set, near, 0, |sheet| {
                sheet.points[1] = Point { name: near, map: sheet.map };
                sheet.count = 2;
            });
            named(c, "both", &two, Return, near, 0, |sheet| sheet.map[..4].copy_from_slice(&MAPS[1]));
            named(c, "both", &two, Set, near, 0, |sheet| sheet.points[1].map = sheet.map);
            named(c, "both", &two, Forget, name, 0, |sheet| {
                sheet.points[0] = sheet.points[1];
                sheet.count = 1;
            });
        }
    }
}

/// Zeros are a name, and a bench without points does not hold it.
fn zeros(s: &mut Suite) {
    let c = &mut Comparison::new(s);
    let mut none = bench(0, 9);
    none.sheets.iter_mut().for_each(|sheet| sheet.points = [Point::ZEROS; 8]);
    let mut one = none.clone();
    for sheet in &mut one.sheets {
        sheet.points[0].map = stored(MAPS[0], 0);
        sheet.count = 1;
    }
    named(c, "no points", &none, Return, [0; 8], 15, same);
    named(c, "no points", &none, Forget, [0; 8], 15, same);
    named(c, "no points", &none, Set, [0; 8], 0, |sheet| {
        sheet.points[0].map = sheet.map;
        sheet.count = 1;
    });
    named(c, "zeros held", &one, Return, [0; 8], 0, |sheet| sheet.map[..4].copy_from_slice(&MAPS[0]));
    named(c, "zeros held", &one, Set, [0; 8], 0, |sheet| sheet.points[0].map = sheet.map);
    named(c, "zeros held", &one, Forget, [0; 8], 0, |sheet| sheet.count = 0);
}

/// A name is known to the sheet on which it was set, and to no other.
fn two_sheets(s: &mut Suite) {
    let c = &mut Comparison::new(s);
    for (sheet, other) in (0..8).flat_map(|sheet| (0..8).map(move |other| (sheet, other))) {
        if sheet == other {
            continue;
        }
        let mut lone = bench(0, 3);
        lone.sheets[other].count = 8;
        let mut ask = |call: PointCall, number: u32, due: Bench| {
            let found = call.ask(&lone.image(), sheet, &NAMES[2], c.rng());
            c.compare(found, (number, due), || format!("{call:?} on sheet {sheet}, known to {other}"));
        };
        ask(Return, 15, lone.clone());
        ask(Forget, 15, lone.clone());
        let mut set = lone.clone();
        set.sheets[sheet].points[0] = Point { name: NAMES[2], map: lone.sheets[sheet].map };
        set.sheets[sheet].count = 1;
        ask(Set, 0, set);
    }
}

/// 1 before 7 before 8 before 15 and 16; and no tally is a cause for 13.
fn order(s: &mut Suite) {
    let c = &mut Comparison::new(s);
    let mut faulty = bench(8, 1);
    faulty.sheets[5].points[7].map[1] = 2;
    let sizeless = |n: usize| Bench { n, ..faulty.clone() };
    for call in POINT_CALLS {
        for name in [NAMES[0], NAMES[8]] {
            let mut ask = |what: &str, bench: &Bench, sheet: usize, number: u32| {
                let found = call.ask(&bench.image(), sheet, &name, c.rng());
                c.compare(found, (number, bench.clone()), || format!("{call:?}, {what}, sheet {sheet}"));
            };
            for sheet in [0, 5, 7, 8, 255, 256, 1 << 32, (1 << 32) + 5, 1 << 40, usize::MAX] {
                for n in [0, 65, 255] {
                    ask("no size", &sizeless(n), sheet, 1);
                }
                ask("zeros", &Bench::zeros(), sheet, 1);
                ask("a fault", &faulty, sheet, if sheet > 7 { 7 } else { 8 });
                if sheet > 7 {
                    ask("no fault", &bench(8, 1), sheet, 7);
                    ask("no points", &bench(0, 1), sheet, 7);
                }
            }
        }
    }
    for (sheet, number) in [(0, 8), (5, 8), (8, 7)] {
        let found = ask_clear(&faulty.image(), sheet, c.rng());
        c.compare(found, (number, faulty.clone()), || format!("clear, sheet {sheet}"));
        let found = ask_add(&faulty.image(), &Pair { algebra: bare(4), sheet, x: 0, y: 0 }, c.rng());
        c.compare(found, (number, faulty.clone()), || format!("add, sheet {sheet}"));
    }
    for tally in [0, TOP - 1, TOP] {
        let full = bench(8, tally);
        named(c, "any tally", &full, Set, NAMES[4], 0, |sheet| sheet.points[4].map = sheet.map);
        named(c, "any tally", &full, Return, NAMES[4], 0, |sheet| sheet.map[..4].copy_from_slice(&MAPS[4]));
        named(c, "any tally", &full, Forget, NAMES[7], 0, |sheet| sheet.count = 7);
    }
}

/// Clear, and an Add that joins 2 and 3, change no point.
fn other_calls(s: &mut Suite) {
    let c = &mut Comparison::new(s);
    for count in [0, 1, 8] {
        let mut start = bench(count, 20);
        start.sheets.iter_mut().for_each(|sheet| sheet.map[..4].copy_from_slice(&[0, 0, 2, 3]));
        let clear = |c: &mut Comparison, image: &[u8], sheet: usize| ask_clear(image, sheet, c.rng());
        on_each_sheet(c, "clear", &start, 0, clear, |bench, sheet| {
            bench.sheets[sheet].map[..4].copy_from_slice(&[0, 1, 2, 3]);
        });
        let add = |c: &mut Comparison, image: &[u8], sheet: usize| {
            ask_add(image, &Pair { algebra: bare(4), sheet, x: 2, y: 3 }, c.rng())
        };
        on_each_sheet(c, "add", &start, 0, add, |bench, sheet| {
            bench.sheets[sheet].map[..4].copy_from_slice(&[0, 0, 2, 2]);
            bench.sheets[sheet].tally += 1;
        });
    }
}

/// One element, whose map is one byte; and 64, whose map is all of them.
fn smallest_and_largest(s: &mut Suite) {
    let c = &mut Comparison::new(s);
    for n in [1, 64] {
        let identity: [u8; 64] = std::array::from_fn(|x| x as u8);
        let halves: [u8; 64] = std::array::from_fn(|x| (x % 2) as u8);
        let mut start = Bench { n, ..bench(0, 0) };
        for sheet in &mut start.sheets {
            *sheet = Sheet::bare(halves);
            sheet.points[0] = Point { name: NAMES[0], map: identity };
            sheet.count = 1;
        }
        named(c, "all bytes", &start, Return, NAMES[0], 0, |sheet| {
            sheet.map[..n].copy_from_slice(&identity[..n]);
        });
        named(c, "all bytes", &start, Set, NAMES[0], 0, |sheet| sheet.points[0].map = halves);
        named(c, "all bytes", &start, Set, NAMES[1], 0, |sheet| {
            sheet.points[1] = Point { name: NAMES[1], map: halves };
            sheet.count = 2;
        });
        named(c, "all bytes", &start, Forget, NAMES[0], 0, |sheet| sheet.count = 0);
    }
}

/// An image byte by byte: two points on sheet 2, whose count is byte 1,739 and
/// whose places begin at 1,740 and 1,812; and eight on sheet 7, whose last place
/// ends the image.
fn by_bytes(s: &mut Suite) {
    let mut image = vec![0; IMAGE];
    for sheet in 0..8 {
        image[64 * sheet..][..4].copy_from_slice(&[0, 1, 2, 3]);
    }
    image[512] = 4;
    image[529] = 6;
    image[577] = 9;
    image[128..133].copy_from_slice(&[0, 1, 0, 1, 77]);
    let mut step =
        |what: &str, call: PointCall, before: &[u8], sheet: usize, name: &[u8], due: (u32, Vec<u8>)| {
            let found = call.ask(before, sheet, name, &mut s.rng);
            s.same(what, (found.number, found.image, found.untouched), (due.0, due.1, true));
        };
    let one = changed(&image, &[(1739, &[1]), (1740, b"one     "), (1748, &[0, 1, 0, 1, 77])]);
    step("the first point", Set, &image, 2, b"one     ", (0, one.clone()));
    let joined = changed(&one, &[(128, &[0, 0, 0, 0, 88])]);
    let two = changed(&joined, &[(1739, &[2]), (1812, b"two     "), (1820, &[0, 0, 0, 0, 88])]);
    step("the second point", Set, &joined, 2, b"two     ", (0, two.clone()));
    let back = changed(&two, &[(128, &[0, 1, 0, 1])]);
    step("back to the first", Return, &two, 2, b"one     ", (0, back.clone()));
    step("unknown", Return, &back, 3, b"one     ", (15, back.clone()));
    let moved = changed(&back, &[(1739, &[1]), (1740, b"two     "), (1748, &[0, 0, 0, 0, 88])]);
    step("the first is forgotten", Forget, &back, 2, b"one     ", (0, moved.clone()));
    let none = changed(&moved, &[(1739, &[0])]);
    step("the second too", Forget, &moved, 2, b"two     ", (0, none.clone()));
    step("and once more", Forget, &none, 2, b"two     ", (15, none.clone()));
    // Eight points on the last sheet, the names of which are one byte each.
    let mut full = changed(&none, &[(4624, &[8])]);
    for place in 0..8 {
        full = changed(
            &full,
            &[(4625 + 72 * place, &[place as u8 + 1]), (4633 + 72 * place, &[0, 0, 2, 2, 99])],
        );
    }
    step("nine", Set, &full, 7, &[9, 0, 0, 0, 0, 0, 0, 0], (16, full.clone()));
    let last = changed(&full, &[(5137, &[0, 1, 2, 3, 0])]);
    step("the last place", Set, &full, 7, &[8, 0, 0, 0, 0, 0, 0, 0], (0, last));
    let fewer = changed(&full, &[(4624, &[7]), (4625, &[8])]);
    step("the first place", Forget, &full, 7, &[1, 0, 0, 0, 0, 0, 0, 0], (0, fewer));
}

pub fn suites(run: &mut Run) {
    run.suite("probe: bench points, place by place", places);
    run.suite("probe: bench points, freed places", freed);
    run.suite("probe: bench points, near names", near_names);
    run.suite("probe: bench points, zeros as a name", zeros);
    run.suite("probe: bench points, two sheets", two_sheets);
    run.suite("probe: bench points, order of tests", order);
    run.suite("probe: bench points, other calls", other_calls);
    run.suite("probe: bench points, smallest and largest", smallest_and_largest);
    run.suite("probe: bench points, byte by byte", by_bytes);
}
