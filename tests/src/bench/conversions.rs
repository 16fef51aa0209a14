//! Old benches of every kind converted: good ones whole, faulty ones to a bench
//! of zeros, and what the other calls say of the bench that came out. The points,
//! which the third kind has, are looked at in `third_kind`.

use outside_tests::algebras::bare;
use outside_tests::random::Rng;
use outside_tests::reference::algebra::Algebra;
use outside_tests::reference::bench::{Bench, BenchV1, BenchV2, BenchV3, Maps, SheetV3, OLD_TOP};
use outside_tests::reference::map::{all, identity};
use outside_tests::report::{Run, Suite};

use super::calls::{ask_add, ask_clear, ask_convert, Pair, PointCall, POINT_CALLS};
use super::images::{changed, Image, IMAGE, IMAGE_V1, IMAGE_V2, IMAGE_V3};
use super::material::{
    before_tallies, faults, put_fault, scribble, some_bench_v3, some_maps, some_name, some_old_tally,
    some_tally, SIZES,
};
use super::sequences::some_call;
use super::Comparison;

/// Benches of each kind with these maps.
struct Old {
    first: BenchV1,
    second: BenchV2,
    third: BenchV3,
}

impl Old {
    fn with(n: usize, maps: Maps, rng: &mut Rng) -> Old {
        let size = n.clamp(1, 64);
        let mut third = BenchV3 { n, ..some_bench_v3(size, rng) };
        for (sheet, map) in third.sheets.iter_mut().zip(maps) {
            sheet.map = map;
        }
        Old {
            first: BenchV1 { n, maps, tally: some_old_tally(rng) },
            second: BenchV2 { n, maps, tally: some_tally(size, rng) },
            third,
        }
    }
}

/// The numbers that benches of the three kinds draw, and what comes of each.
fn convert_all(comparison: &mut Comparison, old: &Old) -> ([u32; 3], (BenchV2, BenchV3, Bench)) {
    let (first, second) = comparison.convert_v1(&old.first);
    let (next, third) = comparison.convert_v2(&old.second);
    let (last, bench) = comparison.convert_v3(&old.third);
    ([first, next, last], (second, third, bench))
}

/// Benches of each kind with these maps, which must draw the number; then the
/// steps that are left, of which each finds no other fault than zeros, and the
/// other calls.
fn try_one(comparison: &mut Comparison, n: usize, maps: Maps, number: u32) {
    let old = Old::with(n, maps, comparison.rng());
    let (drawn, (second, third, bench)) = convert_all(comparison, &old);
    comparison
        .suite
        .check(drawn == [number; 3], || format!("  the reference draws {drawn:?}: {n}, {maps:?}"));
    let (drawn, once_more) = comparison.convert_v2(&second);
    let left = [comparison.convert_v3(&third), comparison.convert_v3(&once_more)];
    let due = [(number != 0) as u32; 3];
    comparison.suite.same("the steps that are left", [drawn, left[0].0, left[1].0], due);
    for bench in [&bench, &left[0].1, &left[1].1] {
        try_calls(comparison, bench);
    }
}

fn try_calls(comparison: &mut Comparison, bench: &Bench) {
    let (sheet, name) = (comparison.rng().below(8), some_name(comparison.rng()));
    let n = if bench.n == 0 { 2 } else { bench.n };
    let (x, y) = (comparison.rng().below(n), comparison.rng().below(n));
    comparison.clear(bench, sheet);
    comparison.add(bench, &Pair { algebra: bare(n), sheet, x, y });
    for call in POINT_CALLS {
        comparison.point(call, bench, sheet, name);
    }
}

/// An image of the first kind with U's factors on the first and the last sheet,
/// and some of its bytes changed.
fn with(changes: &[(usize, u8)]) -> Vec<u8> {
    let mut old = Vec::new();
    for sheet in 0..8u8 {
        let map = match sheet {
            0 => [0, 1, 0, 1],
            7 => [0, 0, 2, 2],
            _ => [0, 1, 2, 3],
        };
        old.extend([&map[..], &[100 + sheet; 60]].concat());
    }
    old.extend([4, 255, 254, 253, 252]);
    changes.iter().for_each(|&(place, byte)| old[place] = byte);
    old
}

/// The same with four bytes of the tally more: an image of the second kind.
pub fn longer(changes: &[(usize, u8)], more: [u8; 4]) -> Vec<u8> {
    [&with(changes)[..], &more].concat()
}

/// And with no points behind it: one of the third kind.
fn pointless(changes: &[(usize, u8)], more: [u8; 4]) -> Vec<u8> {
    [&longer(changes, more)[..], &[0; IMAGE_V3 - IMAGE_V2]].concat()
}

/// And with eight tallies of 0 before the old one, which is earlier.
fn whole(changes: &[(usize, u8)], more: [u8; 4]) -> Vec<u8> {
    begun(&pointless(changes, more))
}

/// What comes of an image of the third kind.
pub fn begun(third: &[u8]) -> Vec<u8> {
    [&third[..513], &[0; 64], &third[513..]].concat()
}

fn by_hand(s: &mut Suite) {
    let rows: [(&str, &[(usize, u8)], u32); 14] = [
        ("as it is", &[], 0),
        ("n is 0", &[(512, 0)], 1),
        ("n is 65", &[(512, 65)], 1),
        ("n is 255", &[(512, 255)], 1),
        ("n is 64, past the maps", &[(512, 64)], 8),
        ("n is 5, past the maps", &[(512, 5)], 8),
        ("n is 0, the first byte 1", &[(512, 0), (0, 1)], 1),
        ("n is 65, the first byte 1", &[(512, 65), (0, 1)], 1),
        ("the first byte is 1", &[(0, 1)], 8),
        ("0 1 0 2", &[(3, 2)], 8),
        ("0 1 0 4", &[(3, 4)], 8),
        ("0 2 2 2 on the last sheet", &[(449, 2)], 8),
        ("0 0 2 1 on the last sheet", &[(451, 1)], 8),
        ("0 0 2 255 on the last sheet", &[(451, 255)], 8),
    ];
    for (what, changes, number) in rows {
        let more = [1, 0, 0, 255];
        convert_by_hand(s, what, &with(changes), number, longer(changes, [0; 4]));
        convert_by_hand(s, what, &longer(changes, more), number, pointless(changes, more));
        convert_by_hand(s, what, &pointless(changes, more), number, whole(changes, more));
    }
    convert_by_hand(s, "nothing but zeros", &[0; IMAGE_V1], 1, vec![0; IMAGE_V2]);
    convert_by_hand(s, "nothing but zeros", &[0; IMAGE_V2], 1, vec![0; IMAGE_V3]);
    convert_by_hand(s, "nothing but zeros", &[0; IMAGE_V3], 1, vec![0; IMAGE]);
    on_it_goes(s);
}

/// What is due where the number is 0; else zeros are.
pub fn convert_by_hand(s: &mut Suite, what: &str, old: &[u8], number: u32, due: Vec<u8>) {
    let lent = s.rng.bytes(due.len());
    let found = ask_convert(old, &lent, &mut s.rng);
    let due = if number == 0 { due } else { vec![0; lent.len()] };
    s.same(what, (found.number, found.untouched), (number, true));
    s.same(what, found.image, due);
}

/// A bench of the first kind, whose tally is at its top, is converted three times,
/// loses a block, is cleared and gets a point; each call gets the image that the
/// one before left.
fn on_it_goes(s: &mut Suite) {
    let full = [(513, 255), (514, 255), (515, 255), (516, 255)];
    let steps = [longer(&full, [0; 4]), pointless(&full, [0; 4]), whole(&full, [0; 4])];
    let mut image = with(&full);
    for due in steps {
        let lent = s.rng.bytes(due.len());
        image = ask_convert(&image, &lent, &mut s.rng).image;
        s.same("converted", &image, &due);
    }
    let u = Algebra { n: 4, arities: vec![1], cells: vec![1, 0, 3, 2] };
    let added = ask_add(&image, &Pair { algebra: u, sheet: 0, x: 0, y: 1 }, &mut s.rng);
    image = changed(&image, &[(1, &[0]), (3, &[0]), (513, &[1])]);
    s.same("added", (added.number, &added.image), (0, &image));
    let cleared = ask_clear(&added.image, 7, &mut s.rng);
    image = changed(&image, &[(449, &[1]), (451, &[3])]);
    s.same("cleared", (cleared.number, &cleared.image), (0, &image));
    let set = PointCall::Set.ask(&cleared.image, 0, b"all     ", &mut s.rng);
    image = changed(&image, &[(585, &[1]), (586, b"all     "), (594, &[0; 4]), (598, &[100; 60])]);
    s.same("set", (set.number, &set.image), (0, &image));
}

/// After each call of a list the old benches with the same n, maps, points and
/// total become the bench that the calls gave, but for what each kind has not;
/// the list goes on from the bench that has it.
fn in_use(s: &mut Suite) {
    let mut comparison = Comparison::new(s);
    for round in 0..1500 {
        let limit = if round % 30 == 0 { 64 } else { 6 };
        let n = comparison.rng().within(1, limit);
        let (_, mut bench) = comparison.start(n);
        bench.earlier = match comparison.rng().below(2) {
            0 => u64::from(some_old_tally(comparison.rng())),
            _ => some_tally(n, comparison.rng()),
        };
        for _ in 0..10 {
            convert_in_use(&mut comparison, &bench);
            bench = some_call(&mut comparison, &bench, n, limit).1;
        }
        if comparison.suite.is_over() {
            return;
        }
    }
    comparison.must_have_seen(&[0, 7, 8, 15]);
}

fn convert_in_use(comparison: &mut Comparison, bench: &Bench) {
    let (n, maps, tally) = (bench.n, bench.maps(), bench.earlier);
    let mut untallied = bench.clone();
    untallied.sheets.iter_mut().for_each(|sheet| sheet.tally = 0);
    let made = comparison.convert_v3(&before_tallies(bench));
    comparison.suite.same("the third kind", made, (0, untallied));
    let second = BenchV2 { n, maps, tally };
    let made = comparison.convert_v2(&second);
    comparison.suite.same(
        "the second kind",
        made,
        (0, BenchV3 { n, sheets: maps.map(SheetV3::bare), tally }),
    );
    if tally <= OLD_TOP {
        let made = comparison.convert_v1(&BenchV1 { n, maps, tally: tally as u32 });
        comparison.suite.same("the first kind", made, (0, second));
    }
}

/// Every byte for n: on maps over any size, on damaged ones and on any bytes. 1
/// goes before 8.
fn every_size(s: &mut Suite) {
    let mut comparison = Comparison::new(s);
    let of = |map: Vec<u8>| -> Maps { [map.try_into().unwrap(); 8] };
    for n in 0..=255 {
        let bad = n == 0 || n > 64;
        let mut one_bad = of(identity(64));
        one_bad[n % 8][0] = 1;
        let any: Maps = std::array::from_fn(|_| comparison.rng().bytes(64).try_into().unwrap());
        for (maps, number) in
            [(of(all(64)), 0), (of(identity(64)), 0), (one_bad, 8), (of(vec![255; 64]), 8), (any, 8)]
        {
            try_one(&mut comparison, n, maps, if bad { 1 } else { number });
        }
    }
}

/// Each fault on each of the eight sheets, the others good.
fn faulty_sheets(s: &mut Suite) {
    let mut comparison = Comparison::new(s);
    for n in SIZES {
        for sheet in 0..8 {
            for fault in faults(n) {
                let mut maps = some_maps(n, comparison.rng());
                put_fault(n, &mut maps[sheet], &fault);
                try_one(&mut comparison, n, maps, 8);
            }
        }
    }
}

/// A byte past n is no fault, whatever it is, and crosses.
fn past_n(s: &mut Suite) {
    let mut comparison = Comparison::new(s);
    for n in SIZES.into_iter().filter(|&n| n < 64) {
        for sheet in 0..8 {
            for place in [n, (n + 63) / 2, 63] {
                for byte in [0, 1, place - 1, place, place + 1, n, 63, 64, 255] {
                    let mut maps = some_maps(n, comparison.rng());
                    maps[sheet][place] = byte as u8;
                    try_one(&mut comparison, n, maps, 0);
                }
            }
        }
        let mut maps = some_maps(n, comparison.rng());
        maps.iter_mut().for_each(|map| scribble(n, map, comparison.rng()));
        try_one(&mut comparison, n, maps, 0);
    }
}

/// Each byte of the old tally with every value, over zeros, ones and any bits:
/// the new image has the same bytes, and zeros behind them, of the third kind
/// before them.
fn tallies(s: &mut Suite) {
    let mut comparison = Comparison::new(s);
    for k in 0..8 {
        for byte in 0..=255 {
            for others in [0, u64::MAX, comparison.rng().next()] {
                let mut bytes = others.to_le_bytes();
                bytes[k] = byte;
                let n = comparison.rng().within(1, 64);
                let maps = some_maps(n, comparison.rng());
                let mut old = Old::with(n, maps, comparison.rng());
                old.third.tally = u64::from_le_bytes(bytes);
                old.second.tally = old.third.tally;
                old.first.tally = old.third.tally as u32;
                let (_, (second, third, bench)) = convert_all(&mut comparison, &old);
                carried(&mut comparison, &old.first, &second);
                carried(&mut comparison, &old.second, &third);
                comparison.suite.same("the image", bench.image(), begun(&old.third.image()));
            }
        }
    }
}

fn carried(comparison: &mut Comparison, old: &impl Image, new: &impl Image) {
    let mut due = old.image();
    due.resize(new.image().len(), 0);
    comparison.suite.same("the image", new.image(), due);
}

/// Every byte of a good bench's sheets in turn, changed to what is near an edge.
fn every_byte(s: &mut Suite) {
    let mut comparison = Comparison::new(s);
    for n in [1, 5, 64] {
        let good = some_maps(n, comparison.rng());
        for (sheet, place) in (0..8).flat_map(|sheet| (0..64).map(move |place| (sheet, place))) {
            for byte in [0, 1, place.max(1) - 1, place, place + 1, n - 1, n, 63, 64, 255] {
                let mut maps = good;
                maps[sheet][place] = byte as u8;
                let old = Old::with(n, maps, comparison.rng());
                convert_all(&mut comparison, &old);
            }
        }
    }
    comparison.must_have_seen(&[0, 8]);
}

/// A good bench with some bytes changed, and images of nothing but any bytes.
fn any_bytes(s: &mut Suite) {
    let mut comparison = Comparison::new(s);
    for round in 0..10_000 {
        let n = if round % 7 == 0 { comparison.rng().below(256) } else { comparison.rng().within(1, 8) };
        let within = n.clamp(1, 64);
        let mut maps = some_maps(within, comparison.rng());
        // Few values make maps, and faults far inside, more frequent.
        let values = *comparison.rng().pick(&[2, 3, 8, 64, 256]);
        for _ in 0..comparison.rng().below(12) {
            let (sheet, place) = (comparison.rng().below(8), comparison.rng().below(within));
            maps[sheet][place] = comparison.rng().below(values) as u8;
        }
        if round % 4 == 0 {
            maps.iter_mut().for_each(|map| scribble(0, map, comparison.rng()));
        }
        let old = Old::with(n, maps, comparison.rng());
        let (_, (_, _, bench)) = convert_all(&mut comparison, &old);
        let sheet = comparison.rng().below(8);
        comparison.clear(&bench, sheet);
        if comparison.suite.is_over() {
            return;
        }
    }
    comparison.must_have_seen(&[0, 1, 8]);
}

pub fn suites(run: &mut Run) {
    run.suite("probe: bench conversion, by hand", by_hand);
    run.suite("probe: bench conversion, benches in use", in_use);
    run.suite("probe: bench conversion, every n", every_size);
    run.suite("probe: bench conversion, faulty sheets", faulty_sheets);
    run.suite("probe: bench conversion, bytes past n", past_n);
    run.suite("probe: bench conversion, tallies", tallies);
    run.suite("probe: bench conversion, every byte", every_byte);
    run.suite("probe: bench conversion, any bytes", any_bytes);
}
