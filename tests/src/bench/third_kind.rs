//! Benches of the third kind converted: their points are tested as Clear tests
//! them, and every byte of them crosses, of free places and past n too.

use outside_tests::random::Rng;
use outside_tests::reference::bench::BenchV3;
use outside_tests::report::{Run, Suite};

use super::conversions::{begun, convert_by_hand, longer};
use super::faults::spoil_points;
use super::images::{changed, Image};
use super::material::{before_tallies, some_bench, some_bench_v3, SIZES};
use super::Comparison;

/// Over four elements: so many points on each sheet as its number says, which all
/// have the map 0 0 2 2; a free place is filled with 238, which is no map.
fn by_hand_image() -> Vec<u8> {
    let mut image = longer(&[], [1, 0, 0, 255]);
    for sheet in 0..8 {
        image.push(sheet);
        for place in 0..8 {
            if place < sheet {
                image.extend([sheet, place, 0, 0, 0, 0, 0, 1]);
                image.extend([0, 0, 2, 2]);
                image.extend([10 * sheet + place; 60]);
            } else {
                image.extend([238; 72]);
            }
        }
    }
    image
}

/// The points of sheets 0, 2, 3 and 7 begin at 521, 1,675, 2,252 and 4,560.
fn by_hand(s: &mut Suite) {
    let rows: [(&str, &[(usize, &[u8])], u32); 20] = [
        ("as it is", &[], 0),
        ("no total", &[(513, &[0; 8])], 0),
        ("a total at the top", &[(513, &[255; 8])], 0),
        ("three elements", &[(512, &[3])], 0),
        ("five elements", &[(512, &[5])], 8),
        ("no points on sheet 7", &[(4560, &[0])], 0),
        ("a free place held on sheet 7", &[(4560, &[8])], 8),
        ("a free place held on sheet 0", &[(521, &[1])], 8),
        ("nine points on sheet 0", &[(521, &[9])], 8),
        ("eight points on sheet 7", &[(4560, &[8]), (5065, &[7; 8]), (5073, &[0, 0, 2, 2])], 0),
        ("the same eight, a count of nine", &[(4560, &[9]), (5065, &[7; 8]), (5073, &[0, 0, 2, 2])], 8),
        ("255 points on sheet 7", &[(4560, &[255])], 8),
        ("no map in the last place held on sheet 7", &[(5001, &[1])], 8),
        ("an element too many in the first on sheet 2", &[(1687, &[4])], 8),
        ("any byte behind it", &[(1688, &[255])], 0),
        ("one name in two places of sheet 2", &[(1749, &[0])], 8),
        ("one name on two sheets", &[(2253, &[2])], 0),
        ("zeros as a name", &[(2253, &[0; 8])], 0),
        ("no elements and nine points", &[(512, &[0]), (521, &[9])], 1),
        ("65 elements and one name twice", &[(512, &[65]), (1749, &[0])], 1),
    ];
    for (what, changes, number) in rows {
        let old = changed(&by_hand_image(), changes);
        convert_by_hand(s, what, &old, number, begun(&old));
    }
}

/// An accepted bench crosses whole: the image is the old one with the tallies put
/// in.
fn convert(comparison: &mut Comparison, old: &BenchV3) {
    let (number, bench) = comparison.convert_v3(old);
    if number == 0 {
        comparison.suite.same("every byte", bench.image(), begun(&old.image()));
    }
}

/// Each byte of the points of good benches in turn, changed to what is near an
/// edge.
fn every_byte(s: &mut Suite) {
    let mut comparison = Comparison::new(s);
    for n in [1, 5, 64] {
        for sheet in 0..8 {
            let good = some_bench_v3(n, comparison.rng());
            for count in 0..=255 {
                let mut old = good.clone();
                old.sheets[sheet].count = count;
                convert(&mut comparison, &old);
            }
            for (place, byte) in (0..8).flat_map(|place| (0..72).map(move |byte| (place, byte))) {
                for value in [0, 1, n - 1, n, 255] {
                    let mut old = good.clone();
                    let point = &mut old.sheets[sheet].points[place];
                    match byte {
                        0..8 => point.name[byte] = value as u8,
                        _ => point.map[byte - 8] = value as u8,
                    }
                    convert(&mut comparison, &old);
                }
            }
            if comparison.suite.is_over() {
                return;
            }
        }
    }
    comparison.must_have_seen(&[0, 8]);
}

/// Some faults of points or none, at a size or at what is none.
fn some_spoilt(rng: &mut Rng) -> BenchV3 {
    let n = if rng.once_in(4) { rng.within(1, 64) } else { *rng.pick(&SIZES) };
    let mut bench = some_bench(n, rng);
    (0..rng.below(4)).for_each(|_| spoil_points(&mut bench, rng));
    if rng.once_in(10) {
        bench.n = rng.below(256);
    }
    before_tallies(&bench)
}

fn any_points(s: &mut Suite) {
    let mut comparison = Comparison::new(s);
    for _ in 0..10_000 {
        let old = some_spoilt(comparison.rng());
        convert(&mut comparison, &old);
        if comparison.suite.is_over() {
            return;
        }
    }
    comparison.must_have_seen(&[0, 1, 8]);
}

pub fn suites(run: &mut Run) {
    run.suite("probe: bench conversion of points, by hand", by_hand);
    run.suite("probe: bench conversion of points, every byte", every_byte);
    run.suite("probe: bench conversion of points, any of them", any_points);
}
