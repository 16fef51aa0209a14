//! The reference against the documents' own examples and texts, and its plain
//! half against the definitions searched by brute force.

use outside_tests::algebras;
use outside_tests::random::Rng;
use outside_tests::reference::algebra::Algebra;
use outside_tests::reference::bench::{self, Bench, BenchV1, BenchV2, BenchV3, Name, Point, SheetV3};
use outside_tests::reference::brute::{self, Brute};
use outside_tests::reference::desk::transcript;
use outside_tests::reference::map;
use outside_tests::reference::plain::Plain;
use outside_tests::reference::service::{prefer, Answer, Reference};
use outside_tests::reference::Engine;
use outside_tests::report::{Run, Suite};

use crate::texts;

/// Document 01's examples and its table of refusals, for one engine.
fn examples<E: Engine>(s: &mut Suite) {
    let r = &mut Reference::<E>::default();
    let (u, c, one): (&[u8], &[u8], &[u8]) = (&[1, 0, 3, 2], &[1, 2, 3, 0], &[1]);
    let lent = [7u8; 14];
    let show = |s: &mut Suite, what: &str, answer: Answer, number: u32, written: &[u8]| {
        let mut after = lent.to_vec();
        after[..written.len()].copy_from_slice(written);
        s.same(what, (answer.number, answer.lent), (number, after));
    };
    show(s, "1", r.generate(4, one, u, &[0, 2], &lent), 512, &[0, 1, 0, 1]);
    show(s, "2", r.generate(4, one, u, &[2, 3], &lent), 256, &[0, 1, 2, 2]);
    show(s, "3", r.generate(4, one, u, &[], &lent), 0, &[0, 1, 2, 3]);
    show(s, "4", r.contained(4, one, u, &[0, 0, 0, 3], &lent), 0, &[0, 0, 2, 3]);
    show(s, "5", r.separate(4, one, u, 0, 1, &lent), 0, &[0, 1, 0, 1]);
    show(s, "the text's separate", r.separate(4, one, u, 0, 2, &lent), 0, &[0, 0, 2, 2]);
    show(s, "6", r.decompose(4, one, u, &lent), 512, &[0, 1, 0, 1, 0, 0, 2, 2]);
    show(s, "7", r.decompose(4, one, c, &lent), 11 + 2 * 16_777_216, &[]);
    show(s, "8", r.decompose(3, &[], &[], &lent), 512, &[0, 1, 0, 0, 0, 2]);
    show(s, "9", r.decompose(2, &[], &[], &lent), 11 + 16_777_216, &[]);
    show(s, "10", r.decompose(1, &[], &[], &lent), 11, &[]);
    show(s, "11", r.decompose(3, &[2], &[0, 0, 0, 0, 1, 1, 0, 1, 2], &lent), 512, &[0, 1, 1, 0, 0, 2]);
    show(s, "first shortcut", r.generate(4, one, c, &[0, 1], &lent), 768, &[0, 0, 0, 0]);
    show(s, "third shortcut", r.separate(4, one, c, 0, 1, &lent), 0, &[0, 1, 0, 1]);
    // The table of refusals.
    show(s, "refusal 1", r.generate(65, &[], &[], &[], &lent), 1, &[]);
    show(s, "refusal 2", r.generate(2, &[0; 17], &[0; 17], &[], &lent), 2, &[]);
    show(s, "refusal 3", r.generate(2, &[4], &[0; 16], &[], &lent), 3, &[]);
    show(s, "refusal 4", r.generate(64, &[3], &[], &[], &lent), 4, &[]);
    show(s, "refusal 5", r.generate(2, one, &[0], &[], &lent), 5, &[]);
    show(s, "refusal 6", r.generate(2, one, &[0, 2], &[], &lent), 6, &[]);
    show(s, "refusal 7", r.generate(2, &[], &[], &[0, 2], &lent), 7, &[]);
    show(s, "refusal 8", r.contained(3, &[], &[], &[0, 2, 2], &lent), 8, &[]);
    s.same("refusal 9", r.generate(4, &[], &[], &[], &lent[..3]).number, 9);
    show(s, "refusal 10", r.separate(4, &[], &[], 1, 1, &lent), 10, &[]);
    show(s, "refusal 12", r.quotient(4, one, u, &[0, 1, 0, 3], &lent), 12, &[]);
    s.same("9 before 12", r.quotient(4, one, u, &[0, 1, 0, 3], &lent[..2]).number, 9);
    show(s, "quotient", r.quotient(4, one, u, &[0, 1, 0, 1], &lent), 512, &[1, 0]);
    show(s, "quotient by all", r.quotient(4, &[1, 0], &[1, 0, 3, 2, 3], &[0, 0, 0, 0], &lent), 256, &[0, 0]);
    // Certify: readings of the edges.
    let u_factors = [0, 1, 0, 1, 0, 0, 2, 2];
    s.same("certify the factors", r.certify(4, one, u, &u_factors), Ok(true));
    s.same("certify one of them", r.certify(4, one, u, &u_factors[..4]), Ok(false));
    s.same("certify a repeated map", r.certify(4, one, u, &[u_factors, u_factors].concat()), Ok(false));
    s.same("certify no congruence", r.certify(4, one, u, &[0, 1, 0, 3]), Ok(false));
    s.same("certify no map", r.certify(3, &[], &[], &[0, 2, 2]), Err(8));
    s.same("certify a part of a map", r.certify(3, &[], &[], &[0, 1]), Err(8));
    s.same("certify 64 maps", r.certify(1, &[], &[], &[0; 64]), Err(8));
    s.same("certify 63 maps", r.certify(1, &[], &[], &[0; 63]), Ok(false));
    s.same("certify nothing, n = 1", r.certify(1, &[], &[], &[]), Ok(true));
    s.same("certify 0, n = 1", r.certify(1, &[], &[], &[0]), Ok(false));
    s.same("certify nothing, n = 2", r.certify(2, &[], &[], &[]), Ok(false));
    s.same("certify the identity, irreducible", r.certify(4, one, c, &[0, 1, 2, 3]), Ok(true));
    s.same("certify the identity, reducible", r.certify(4, one, u, &[0, 1, 2, 3]), Ok(false));
    // Meet and Join.
    show(s, "meet", r.meet(4, &[0, 0, 0, 3], &[0, 1, 1, 1], &lent), 0, &[0, 1, 1, 3]);
    show(s, "join", r.join(4, &[0, 0, 2, 3], &[0, 1, 1, 3], &lent), 0, &[0, 0, 0, 3]);
    show(s, "meet: 1 before 8", r.meet(0, &[1], &[], &lent), 1, &[]);
    show(s, "meet: 8", r.meet(2, &[0, 1], &[1, 1], &lent), 8, &[]);
    // The bench.
    let zeros = Bench::zeros();
    s.same("refused start", bench::start(65), (1, zeros.clone()));
    s.same("zeros in Add", bench::add(r, &zeros, 2, &[], &[], 0, 0, 1).0, 8);
    s.same("zeros in Clear", bench::clear(&zeros, 0).0, 1);
    // Prefer.
    s.same("prefer", prefer(4, &[0, 0, 2, 2], &[0, 1, 0, 1]), &[0, 0, 2, 2][..]);
    s.same("prefer the second", prefer(3, &[0, 1, 2], &[0, 1, 1]), &[0, 1, 1][..]);
    s.same("prefer a bad map", prefer(3, &[0, 1, 2], &[0, 2, 2]), &[][..]);
}

/// Document 02's second request, for one engine: the factors of U, of three
/// elements and of minimum take 8, 6 and 6 bytes; C, two elements and one want
/// none.
fn factor_space<E: Engine>(s: &mut Suite) {
    let r = &mut Reference::<E>::default();
    let minimum: &[u8] = &[0, 0, 0, 0, 1, 1, 0, 1, 2];
    let rows: [(usize, &[u8], &[u8], u32, &[u8]); 6] = [
        (4, &[1], &[1, 0, 3, 2], 512, &[0, 1, 0, 1, 0, 0, 2, 2]),
        (3, &[], &[], 512, &[0, 1, 0, 0, 0, 2]),
        (3, &[2], minimum, 512, &[0, 1, 1, 0, 0, 2]),
        (4, &[1], &[1, 2, 3, 0], 11 + 2 * 16_777_216, &[]),
        (2, &[], &[], 11 + 16_777_216, &[]),
        (1, &[], &[], 11, &[]),
    ];
    for (n, arities, cells, number, written) in rows {
        for length in 0..20 {
            let lent = vec![7; length];
            let found = r.decompose(n, arities, cells, &lent);
            let mut wanted = Answer { number: 9, lent };
            if length >= written.len() {
                wanted.number = number;
                wanted.lent[..written.len()].copy_from_slice(written);
            }
            s.same(&format!("n = {n}, {cells:?}, {length} bytes"), found, wanted);
        }
    }
    let damaged = r.decompose(4, &[1], &[1, 0, 3, 4], &[]);
    s.same("6 before 9", damaged, Answer { number: 6, lent: vec![] });
}

/// Document 02's third request, for one engine: where the tally ends now, and
/// that nothing ends where it used to.
fn longer_tally<E: Engine>(s: &mut Suite) {
    let r = &mut Reference::<E>::default();
    let mut raised = |tally: u64, n: usize, cells: &[u8], x: usize, y: usize| {
        let arities: &[u8] = if cells.is_empty() { &[] } else { &[1] };
        let mut bench = bench::start(n).1;
        bench.sheets[3].tally = tally;
        let (number, after) = bench::add(r, &bench, n, arities, cells, 3, x, y);
        (number, after.sheets[3].tally, after == bench)
    };
    let top = 18_446_744_073_709_551_615;
    s.same("at the top", raised(top, 2, &[], 0, 1), (13, top, true));
    s.same("nothing lost at the top", raised(top, 2, &[], 1, 1), (0, top, true));
    s.same("one below the top", raised(top - 1, 2, &[], 0, 1), (0, top, false));
    s.same("nothing lost below the top", raised(top - 1, 2, &[], 1, 1), (0, top - 1, true));
    let turning: &[u8] = &[1, 2, 0];
    s.same("two lost, one left", raised(top - 1, 3, turning, 0, 1), (13, top - 1, true));
    s.same("two lost, two left", raised(top - 2, 3, turning, 0, 1), (0, top, false));
    s.same("two lost, three left", raised(top - 3, 3, turning, 0, 1), (0, top - 1, false));
    s.same("at the old top", raised(4_294_967_295, 2, &[], 0, 1), (0, 4_294_967_296, false));
    s.same("across the old top", raised(4_294_967_294, 3, turning, 0, 1), (0, 4_294_967_296, false));
    s.same("far from both", raised(7, 3, turning, 0, 1), (0, 9, false));
    let mut below = bench::start(2).1;
    below.sheets[3].tally = top - 1;
    let joined = bench::add(r, &below, 2, &[], &[], 3, 0, 1).1;
    s.same("the sheet at the top", joined.sheets[3].map[..2].to_vec(), vec![0, 0]);
    s.same("clear keeps the tally", bench::clear(&joined, 3).1.sheets[3].tally, top);
}

/// Document 02's sixth request, for one engine: two lecturers over U, of whom one
/// has a sheet at the top, on a bench whose total was at the top.
fn shared_bench<E: Engine>(s: &mut Suite) {
    let r = &mut Reference::<E>::default();
    let mut bench = bench::start(4).1;
    let nine = |bench: &Bench| (bench.sheets.map(|sheet| sheet.tally), bench.earlier);
    s.same("Start gives nine zeros", nine(&bench), ([0; 8], 0));
    let top = 18_446_744_073_709_551_615;
    (bench.sheets[1].tally, bench.earlier) = (top, top);
    let mut step = |what: &str, (number, after): (u32, Bench), due: (u32, u64, u64)| -> Bench {
        let tallies = [due.1, top, 0, 0, 0, 0, 0, due.2];
        s.same(what, (number, nine(&after)), (due.0, (tallies, top)));
        after
    };
    let mut add =
        |bench: &Bench, k: usize, x: usize, y: usize| bench::add(r, bench, 4, &[1], &[1, 0, 3, 2], k, x, y);
    bench = step("0 2 on the first, so 1 3", add(&bench, 0, 0, 2), (0, 2, 0));
    bench = step("the same on the last", add(&bench, 7, 0, 2), (0, 2, 2));
    bench = step("the one at the top", add(&bench, 1, 0, 2), (13, 2, 2));
    bench = step("nothing to lose there", add(&bench, 1, 2, 2), (0, 2, 2));
    bench = step("0 1 on the last", add(&bench, 7, 0, 1), (0, 2, 3));
    bench = step("cleared", bench::clear(&bench, 7), (0, 2, 3));
    bench = step("a point", bench::set_point(&bench, 1, [7; 8]), (0, 2, 3));
    bench = step("and back", bench::return_to(&bench, 1, [7; 8]), (0, 2, 3));
    bench = step("forgotten", bench::forget(&bench, 1, [7; 8]), (0, 2, 3));
    step("0 1 on the first", add(&bench, 0, 0, 1), (0, 3, 3));
    s.same("nine zeros again", nine(&bench::start(3).1), ([0; 8], 0));
}

/// What an old bench becomes: 4,294,967,295 is a number like others, U's factors
/// are on two sheets, and a byte past n is no fault.
fn conversions(s: &mut Suite) {
    let mut maps = bench::start(4).1.maps();
    maps[0][..5].copy_from_slice(&[0, 1, 0, 1, 200]);
    maps[7][..4].copy_from_slice(&[0, 0, 2, 2]);
    let first = BenchV1 { n: 4, maps, tally: 4_294_967_295 };
    let second = BenchV2 { n: 4, maps, tally: 4_294_967_295 };
    let third = BenchV3 { n: 4, sheets: maps.map(SheetV3::bare), tally: 4_294_967_295 };
    s.same("the first kind", bench::convert_v1(&first), (0, second.clone()));
    s.same("the second kind", bench::convert_v2(&second), (0, third.clone()));
    let (number, whole) = bench::convert_v3(&third);
    let tallies = whole.sheets.map(|sheet| sheet.tally);
    s.same("the third kind", (number, whole.earlier, tallies), (0, 4_294_967_295, [0; 8]));
    s.same("its maps", whole.maps(), maps);
    let r = &mut Reference::<Plain>::default();
    let (number, after) = bench::add(r, &whole, 4, &[1], &[1, 0, 3, 2], 0, 0, 1);
    s.same("an Add after it", (number, after.sheets[0].tally, after.sheets[0].map[4]), (0, 1, 200));
    s.same("no point after it", bench::return_to(&whole, 0, [0; 8]).0, 15);
    let refused = |what: &str, s: &mut Suite, number: u32, change: &dyn Fn(&mut BenchV2)| {
        let mut changed = second.clone();
        change(&mut changed);
        let first = BenchV1 { n: changed.n, maps: changed.maps, tally: 0 };
        s.same(what, bench::convert_v1(&first), (number, BenchV2::zeros()));
        let sheets = changed.maps.map(SheetV3::bare);
        let third = BenchV3 { n: changed.n, sheets, tally: 7 };
        s.same(what, bench::convert_v2(&changed), (number, BenchV3::zeros()));
        s.same(what, bench::convert_v3(&third), (number, Bench::zeros()));
    };
    refused("no elements", s, 1, &|b| b.n = 0);
    refused("65 elements", s, 1, &|b| b.n = 65);
    refused("255 elements and no map", s, 1, &|b| (b.n, b.maps[0][0]) = (255, 9));
    refused("0 2 2 3 on the first sheet", s, 8, &|b| b.maps[0][1] = 2);
    refused("0 0 1 2 on the last sheet", s, 8, &|b| b.maps[7][..4].copy_from_slice(&[0, 0, 1, 2]));
    refused("a fifth element with byte 200", s, 8, &|b| b.n = 5);
    refused("zeros, as a refused conversion gives them", s, 1, &|b| *b = BenchV2::zeros());
}

/// A class hour over U, for one engine, with all that its sheet shows after each
/// call: the number, sheet 2's map, its tally and how many points are held.
fn class_hour<E: Engine>(s: &mut Suite) {
    let r = &mut Reference::<E>::default();
    let mut bench = bench::start(4).1;
    let mut step = |what: &str, (number, after): (u32, Bench), due: (u32, [u8; 4], u64, usize)| -> Bench {
        let sheet = &after.sheets[2];
        s.same(
            what,
            (number, sheet.map[..4].to_vec(), sheet.tally, sheet.count),
            (due.0, due.1.to_vec(), due.2, due.3),
        );
        after
    };
    let mut add = |bench: &Bench, x: usize, y: usize| bench::add(r, bench, 4, &[1], &[1, 0, 3, 2], 2, x, y);
    let (half, rest): (Name, Name) = (*b"half    ", *b"the rest");
    bench = step("a name unknown", bench::return_to(&bench, 2, half), (15, [0, 1, 2, 3], 0, 0));
    bench = step("0 2 are joined, so 1 3", add(&bench, 0, 2), (0, [0, 1, 0, 1], 2, 0));
    bench = step("half", bench::set_point(&bench, 2, half), (0, [0, 1, 0, 1], 2, 1));
    bench = step("0 1 are joined too", add(&bench, 0, 1), (0, [0, 0, 0, 0], 3, 1));
    bench = step("back: the tally stays", bench::return_to(&bench, 2, half), (0, [0, 1, 0, 1], 3, 1));
    bench = step("2 3 are joined this time", add(&bench, 2, 3), (0, [0, 0, 0, 0], 4, 1));
    bench = step("the rest", bench::set_point(&bench, 2, rest), (0, [0, 0, 0, 0], 4, 2));
    bench = step("clear keeps the points", bench::clear(&bench, 2), (0, [0, 1, 2, 3], 4, 2));
    bench = step("half once more", bench::return_to(&bench, 2, half), (0, [0, 1, 0, 1], 4, 2));
    bench = step("on another sheet", bench::return_to(&bench, 3, half), (15, [0, 1, 0, 1], 4, 2));
    bench = step("cleared again", bench::clear(&bench, 2), (0, [0, 1, 2, 3], 4, 2));
    bench = step("half becomes the identity", bench::set_point(&bench, 2, half), (0, [0, 1, 2, 3], 4, 2));
    bench = step("2 3 alone", add(&bench, 2, 3), (0, [0, 1, 2, 2], 5, 2));
    bench = step("half is not what it was", bench::return_to(&bench, 2, half), (0, [0, 1, 2, 3], 5, 2));
    bench = step("half is forgotten", bench::forget(&bench, 2, half), (0, [0, 1, 2, 3], 5, 1));
    bench = step("and gone", bench::return_to(&bench, 2, half), (15, [0, 1, 2, 3], 5, 1));
    bench = step("the rest, in another place", bench::return_to(&bench, 2, rest), (0, [0, 0, 0, 0], 5, 1));
    for k in 1..8 {
        let set = bench::set_point(&bench, 2, [k; 8]);
        bench = step("up to eight", set, (0, [0, 0, 0, 0], 5, 1 + k as usize));
    }
    bench = step("a ninth", bench::set_point(&bench, 2, half), (16, [0, 0, 0, 0], 5, 8));
    bench = step("one of the eight", bench::set_point(&bench, 2, rest), (0, [0, 0, 0, 0], 5, 8));
    bench = step("one is forgotten", bench::forget(&bench, 2, [3; 8]), (0, [0, 0, 0, 0], 5, 7));
    step("now there is room", bench::set_point(&bench, 2, half), (0, [0, 0, 0, 0], 5, 8));
    let again = bench::start(4).1;
    step("no points after Start", bench::forget(&again, 2, rest), (15, [0, 1, 2, 3], 0, 0));
}

/// What is reason 8 of points, and what is none; 1, 7 and 8 go before 15 and 16.
fn faulty_points(s: &mut Suite) {
    let (one, two): (Name, Name) = (*b"point  1", *b"point  2");
    let mut good = bench::start(3).1;
    for name in [one, two] {
        good = bench::set_point(&good, 6, name).1;
    }
    let mut drawn = |what: &str, numbers: [u32; 4], change: &dyn Fn(&mut Bench)| {
        let mut changed = good.clone();
        change(&mut changed);
        let found = [
            bench::set_point(&changed, 0, one),
            bench::return_to(&changed, 6, two),
            bench::forget(&changed, 6, [9; 8]),
            bench::clear(&changed, 8),
        ];
        s.same(what, found.map(|(number, _)| number), numbers);
    };
    drawn("as it is", [0, 0, 15, 7], &|_| {});
    drawn("nine points", [8, 8, 8, 7], &|b| b.sheets[1].count = 9);
    drawn("255 points", [8, 8, 8, 7], &|b| b.sheets[7].count = 255);
    drawn("0 2 2 under a name", [8, 8, 8, 7], &|b| b.sheets[6].points[1].map[1] = 2);
    drawn("the same in a free place", [0, 0, 15, 7], &|b| b.sheets[6].points[2].map[1] = 2);
    drawn("and past n", [0, 0, 15, 7], &|b| b.sheets[6].points[1].map[3] = 9);
    drawn("two of one name", [8, 8, 8, 7], &|b| b.sheets[6].points[0].name = two);
    drawn("one of them free", [0, 0, 15, 7], &|b| b.sheets[6].points[7].name = two);
    drawn("one of them on another sheet", [0, 0, 15, 7], &|b| b.sheets[5] = b.sheets[6]);
    drawn("no elements, and nine points", [1, 1, 1, 1], &|b| (b.n, b.sheets[0].count) = (0, 9));
    drawn("zeros", [1, 1, 1, 1], &|b| *b = Bench::zeros());
}

/// What becomes of points, and which of them are reason 8, in a bench of the third
/// kind.
fn converted_points(s: &mut Suite) {
    let identity: [u8; 64] = std::array::from_fn(|x| x as u8);
    let mut old = BenchV3 { n: 3, sheets: [SheetV3::bare(identity); 8], tally: 18_446_744_073_709_551_615 };
    let sheet = &mut old.sheets[6];
    sheet.points = std::array::from_fn(|k| Point { name: [k as u8; 8], map: [0; 64] });
    sheet.count = 2;
    let (number, made) = bench::convert_v3(&old);
    s.same("accepted", (number, made.n, made.earlier, made.maps()), (0, 3, old.tally, old.maps()));
    s.same("no tallies yet", made.sheets.map(|sheet| sheet.tally), [0; 8]);
    s.same("the points", made.sheets.map(|sheet| sheet.points), old.sheets.map(|sheet| sheet.points));
    s.same("their counts", made.sheets.map(|sheet| sheet.count), [0, 0, 0, 0, 0, 0, 2, 0]);
    s.same(
        "back to one of them",
        bench::return_to(&made, 6, [1; 8]).1.sheets[6].map[..3].to_vec(),
        vec![0; 3],
    );
    let mut drawn = |what: &str, number: u32, change: &dyn Fn(&mut BenchV3)| {
        let mut changed = old.clone();
        change(&mut changed);
        let (found, bench) = bench::convert_v3(&changed);
        s.same(what, (found, bench == Bench::zeros()), (number, number != 0));
    };
    drawn("nine points", 8, &|b| b.sheets[0].count = 9);
    drawn("0 2 2 under a name", 8, &|b| b.sheets[6].points[1].map[..3].copy_from_slice(&[0, 2, 2]));
    drawn("the same in a free place", 0, &|b| b.sheets[6].points[2].map[1] = 2);
    drawn("and past n", 0, &|b| b.sheets[6].points[1].map[3] = 9);
    drawn("two of one name", 8, &|b| b.sheets[6].points[0].name = [1; 8]);
    drawn("one of them free", 0, &|b| b.sheets[6].points[2].name = [1; 8]);
    drawn("no elements, and nine points", 1, &|b| (b.n, b.sheets[0].count) = (0, 9));
}

/// Whether both engines agree on everything about one algebra.
fn agree(s: &mut Suite, a: &Algebra, maps: &[map::Map]) {
    let (brute, plain) = (Brute::new(a), Plain::new(a));
    let n = a.n;
    let same = |s: &mut Suite, what: &str, left: map::Map, right: map::Map| {
        s.check(left == right, || format!("  {what} of {a:?}\n  brute {left:?}\n  plain {right:?}"));
    };
    same(s, "no pairs", brute.least(&[]), plain.least(&[]));
    for (x, y) in map::pairs(n) {
        same(s, "separate", brute.separate(x, y), plain.separate(x, y));
        same(s, "generate", brute.least(&[(x, y)]), plain.least(&[(x, y)]));
        let (v, w) = (s.rng.below(n), s.rng.below(n));
        same(s, "generate two", brute.least(&[(x, y), (v, w)]), plain.least(&[(x, y), (v, w)]));
    }
    let mut some: Vec<map::Map> = (0..8).map(|_| s.rng.pick(maps).clone()).collect();
    some.extend([map::identity(n), map::all(n)]);
    for m in &some {
        same(s, "contained", brute.greatest_inside(m), plain.greatest_inside(m));
        let other = s.rng.pick(&some).clone();
        same(s, "meet", brute.meet(m, &other), plain.meet(m, &other));
        same(s, "join", brute.join(m, &other), plain.join(m, &other));
        s.check(brute.respects(m) == plain.respects(m), || format!("  congruence? {a:?} {m:?}"));
        let inner = plain.greatest_inside(m);
        s.same("quotient", brute.quotient(&inner), plain.quotient(&inner));
        s.same("maximal", brute.is_maximal_for_a_pair(&inner), plain.is_maximal_for_a_pair(&inner));
        let place = prefer(n, m, &other);
        s.check(place == m.as_slice() || map::is_earlier(&other, m), || format!("  prefer {m:?} {other:?}"));
    }
    s.same("common pair", brute.common_pair(), plain.common_pair());
    let (mut first, mut second) = (Reference::<Brute>::default(), Reference::<Plain>::default());
    let lent = s.rng.bytes(n * n);
    let left = first.decompose(n, &a.arities, &a.cells, &lent);
    let right = second.decompose(n, &a.arities, &a.cells, &lent);
    s.check(left == right, || format!("  decompose {a:?}\n  brute {left:?}\n  plain {right:?}"));
    let count = left.number as usize / 256 % 256;
    if left.number % 256 == 0 {
        let factors = &left.lent[..count * n];
        s.same("certify", first.certify(n, &a.arities, &a.cells, factors), Ok(true));
        s.same("certify", second.certify(n, &a.arities, &a.cells, factors), Ok(true));
    }
    for _ in 0..3 {
        let list: Vec<u8> = (0..s.rng.below(4)).flat_map(|_| s.rng.clone().pick(&some).clone()).collect();
        s.rng.next();
        s.same(
            "certify any list",
            first.certify(n, &a.arities, &a.cells, &list),
            second.certify(n, &a.arities, &a.cells, &list),
        );
    }
}

fn many(s: &mut Suite, limit: usize, cells: usize, times: usize) {
    let maps: Vec<Vec<map::Map>> = (0..=limit).map(brute::maps).collect();
    for one in algebras::structured(limit, &mut s.rng) {
        if one.algebra.cells.len() <= cells {
            agree(s, &one.algebra, &maps[one.algebra.n]);
        }
    }
    for _ in 0..times {
        let one = algebras::any(limit, cells, &mut s.rng);
        agree(s, &one.algebra, &maps[one.algebra.n]);
        if s.is_over() {
            break;
        }
    }
}

pub fn suites(run: &mut Run) {
    run.suite("reference: document 01's examples, by brute force", examples::<Brute>);
    run.suite("reference: document 01's examples, plain", examples::<Plain>);
    run.suite("reference: document 02's space for factors, by brute force", factor_space::<Brute>);
    run.suite("reference: document 02's space for factors, plain", factor_space::<Plain>);
    run.suite("reference: document 02's longer tally, by brute force", longer_tally::<Brute>);
    run.suite("reference: document 02's longer tally, plain", longer_tally::<Plain>);
    run.suite("reference: a bench with a tally for each sheet, by brute force", shared_bench::<Brute>);
    run.suite("reference: a bench with a tally for each sheet, plain", shared_bench::<Plain>);
    run.suite("reference: document 02's conversions of a bench", conversions);
    run.suite("reference: a class hour with points, by brute force", class_hour::<Brute>);
    run.suite("reference: a class hour with points, plain", class_hour::<Plain>);
    run.suite("reference: faulty points", faulty_points);
    run.suite("reference: points in an old bench", converted_points);
    run.suite("reference: brute force and plain agree, n to 5", |s| many(s, 5, 300, 6000));
    run.suite("reference: brute force and plain agree, n to 6", |s| many(s, 6, 250, 1000));
    run.suite("reference: pair places", |s| {
        let mut next = 0;
        for (x, y) in map::pairs(64) {
            s.same("place", map::place(x, y), Some(next));
            next += 1;
        }
        s.same("pairs", next, 2016);
        s.same("equal", map::place(3, 3), None);
        s.same("turned", map::place(4, 3), None);
        s.same("outside", map::place(3, 64), None);
    });
    run.suite("reference: numbers of maps", |s| {
        for (n, count) in [1, 1, 2, 5, 15, 52, 203].into_iter().enumerate() {
            s.same("maps", brute::maps(n).len(), count);
        }
    });
    run.suite("reference: texts with their answers", |s| {
        for (input, output) in texts::known() {
            let found = transcript(&input);
            s.check(found == output, || texts::difference(&input, &found, &output));
        }
    });
    run.suite("reference: workloads are accepted", |s| {
        for one in algebras::workloads(&mut Rng::new(1)) {
            let a = &one.algebra;
            let reason = outside_tests::reference::algebra::reason(a.n, &a.arities, &a.cells);
            s.same(&one.name, reason, 0);
        }
    });
}
