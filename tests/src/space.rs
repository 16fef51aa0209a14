//! What Decompose wants lent, by document 02's second request: count × n bytes
//! where the algebra is reducible, nothing where it is not. Every length is
//! tried, with guard bytes around each slice.

use outside_tests::algebras;
use outside_tests::random::Rng;
use outside_tests::reference::algebra::Algebra;
use outside_tests::report::{Run, Suite};

use crate::compare::{ask, Call, Comparison, Question};
use crate::ffi::Library;

/// Up to this size every length is tried.
const SMALL: usize = 12;

/// Larger sizes at which both kinds of algebras are tried.
const LARGE: [usize; 5] = [13, 31, 33, 63, 64];

/// The lengths up to what any list takes, and some beyond.
fn every_length(n: usize) -> Vec<usize> {
    let most = (n - 1) * n;
    (0..=most).chain([1, n, 70].map(|more| most + more)).collect()
}

/// Of larger algebras those at and beside multiples of n, and beyond.
fn lengths(n: usize) -> Vec<usize> {
    let beside = |length: &usize| n <= SMALL || (length + 1) % n <= 2 || *length > (n - 1) * n;
    every_length(n).into_iter().filter(beside).collect()
}

/// Document 02's own case, 64 elements and two factors, and the edges: the
/// bytes that are wanted, and the number where they are lent.
fn document_values(library: Library, suite: &mut Suite) {
    let unary = |cells: &[u8]| Algebra { n: 4, arities: vec![1], cells: cells.to_vec() };
    let two_factors = algebras::product(&algebras::cyclic(8), &algebras::cyclic(8));
    for (name, algebra, wanted, number) in [
        ("64 elements, two factors", two_factors, 128, 512),
        ("64 elements, 63 factors", algebras::bare(64), 4032, 256 * 63),
        ("64 elements, irreducible", algebras::cyclic(64), 0, 11 + 16_777_216 * 32),
        ("U", unary(&[1, 0, 3, 2]), 8, 512),
        ("C", unary(&[1, 2, 3, 0]), 0, 11 + 16_777_216 * 2),
        ("two elements", algebras::bare(2), 0, 11 + 16_777_216),
        ("one element", algebras::bare(1), 0, 11),
    ] {
        let Algebra { n, arities, cells } = algebra;
        let mut call = Call { n, arities, cells, question: Question::Decompose, lent: vec![] };
        for length in every_length(n) {
            call.lent = suite.rng.bytes(length);
            let (answer, untouched) = ask(&library, &call, &mut suite.rng);
            let (number, written) = if length < wanted { (9, 0) } else { (number, wanted) };
            let kept = answer.lent[written..] == call.lent[written..];
            suite.check(answer.number == number && untouched && kept, || {
                format!("  {name}, {length} bytes: {answer:?}, not {number}; untouched {untouched}")
            });
        }
    }
}

/// Decompose with each of the lengths lent, and with a null pointer.
fn each_length(comparison: &mut Comparison, algebra: &Algebra, lengths: &[usize]) {
    for &length in lengths {
        comparison.of(algebra, Question::Decompose, length);
    }
    let Algebra { n, arities, cells } = algebra;
    let (a, al, c, cl) = (arities.as_ptr(), arities.len(), cells.as_ptr(), cells.len());
    let found = unsafe { (comparison.library.decompose)(*n, a, al, c, cl, std::ptr::null_mut(), 0) };
    let wanted = comparison.reference.decompose(*n, arities, cells, &[]).number;
    comparison.suite.check(found == wanted, || {
        format!("  {algebra:?}, a null pointer\n  found    {found}\n  expected {wanted}")
    });
}

/// Tries the algebras. At each of the sizes there must have been reducible and
/// irreducible ones.
fn compare(library: Library, suite: &mut Suite, list: Vec<Algebra>, sizes: impl Iterator<Item = usize>) {
    let mut comparison = Comparison::new(library, suite);
    let mut kinds = [[0u32; 2]; 65];
    for algebra in list {
        let Algebra { n, arities, cells } = &algebra;
        let count = comparison.reference.factor_count(*n, arities, cells);
        kinds[*n][(count == 0) as usize] += 1;
        each_length(&mut comparison, &algebra, &lengths(*n));
        if comparison.suite.is_over() {
            return;
        }
    }
    for n in sizes {
        suite.check(!kinds[n].contains(&0), || format!("  n = {n}: {:?} of the two kinds", kinds[n]));
    }
}

/// No operations, which is n - 1 factors for n above 2; and steps up and down,
/// which are irreducible.
fn both_kinds(n: usize) -> [Algebra; 2] {
    let steps = algebras::build(n, &[(1, &|a| (a[0] + 1).min(n - 1)), (1, &|a| a[0].saturating_sub(1))]);
    [algebras::bare(n), steps]
}

fn small(share: usize, rng: &mut Rng) -> Vec<Algebra> {
    let mut list: Vec<Algebra> = (1..=SMALL).flat_map(both_kinds).collect();
    list.extend(algebras::structured(SMALL, rng).into_iter().map(|one| one.algebra));
    list.extend((0..600 / share).map(|_| algebras::any(SMALL, 2000, rng).algebra));
    list
}

fn large(share: usize, rng: &mut Rng) -> Vec<Algebra> {
    let mut list: Vec<Algebra> = LARGE.into_iter().flat_map(both_kinds).collect();
    list.extend(algebras::structured(30, rng).into_iter().map(|one| one.algebra));
    list.extend(algebras::workloads(rng).into_iter().step_by(share).map(|one| one.algebra));
    list.extend((0..60 / share).map(|_| algebras::any(64, 5000, rng).algebra));
    list.retain(|algebra| algebra.n > SMALL);
    list
}

/// The algebra changed so that it draws each of 1 to 6.
fn declined(algebra: &Algebra) -> Vec<(u32, Algebra)> {
    let n = algebra.n;
    let with = |number: u32, change: &dyn Fn(&mut Algebra)| {
        let mut changed = algebra.clone();
        change(&mut changed);
        (number, changed)
    };
    vec![
        with(1, &|a| a.n = 0),
        with(1, &|a| a.n = 65),
        with(1, &|a| a.n += 256),
        with(2, &|a| a.arities.extend([0; 17])),
        with(3, &|a| a.arities.push(4)),
        with(4, &|a| (a.n, a.arities) = (33, vec![3])),
        with(5, &|a| a.cells.push(0)),
        with(6, &|a| (a.arities, a.cells) = (vec![0, 1], [vec![0; n], vec![n as u8]].concat())),
        with(6, &|a| (a.arities, a.cells) = (vec![0], vec![255])),
    ]
}

/// Reasons 1 to 6 come first, whatever is lent.
fn damaged(library: Library, suite: &mut Suite) {
    let mut list: Vec<Algebra> = (1..=8).chain([64]).flat_map(both_kinds).collect();
    list.extend((0..20).map(|_| algebras::any(8, 300, &mut suite.rng).algebra));
    let mut comparison = Comparison::new(library, suite);
    for algebra in list {
        for (number, changed) in declined(&algebra) {
            let answer = comparison.of(&changed, Question::Decompose, 0);
            comparison.suite.same("nothing lent", answer.number, number);
            each_length(&mut comparison, &changed, &lengths(algebra.n));
        }
    }
}

/// All suites of one library. `share` divides the number of cases.
pub fn suites(run: &mut Run, library: Library, share: usize) {
    let name = |part: &str| format!("{}: space for factors, {part}", library.name);
    run.suite(&name("document 02's values"), |s| document_values(library, s));
    run.suite(&name("every length, n to 12"), |s| {
        let list = small(share, &mut s.rng);
        compare(library, s, list, 3..=SMALL);
    });
    run.suite(&name("multiples of n, n to 64"), |s| {
        let list = large(share, &mut s.rng);
        compare(library, s, list, LARGE.into_iter());
    });
    run.suite(&name("damaged algebras"), |s| damaged(library, s));
}
