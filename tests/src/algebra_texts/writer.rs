//! The writer of algebra texts.

use outside_tests::algebras::{self, random};
use outside_tests::random::Rng;
use outside_tests::reference::algebra::Algebra;
use outside_tests::reference::text::{algebra_text, Written};
use outside_tests::report::{Run, Suite};

use super::{full_size, mixed_arities, some_algebra, with_cells, written, Comparison, ROOM};
use crate::ffi::Texts;
use crate::texts;

/// An algebra with one to three faults, so that several reasons may apply.
fn broken(rng: &mut Rng) -> Algebra {
    let mut a = some_algebra(9, 300, rng);
    for _ in 0..rng.within(1, 3) {
        match rng.below(8) {
            0 => a.n = *rng.pick(&[0, 65, 66, 255, 256, 257, 260, 1 << 32, (1 << 32) + 4, usize::MAX]),
            1 => a.arities.extend(vec![0; 17]),
            2 => a.arities.push(rng.within(4, 255) as u8),
            3 => {
                a.n = 64;
                a.arities.push(3);
            }
            4 => a.cells.push(rng.byte()),
            5 => {
                a.cells.pop();
            }
            6 => a.cells.clear(),
            _ if !a.cells.is_empty() => {
                let i = rng.below(a.cells.len());
                a.cells[i] = *rng.pick(&[a.n as u8, 63, 64, 255]);
            }
            _ => {}
        }
    }
    a
}

/// U of document 01.
fn u() -> Algebra {
    Algebra { n: 4, arities: vec![1], cells: vec![1, 0, 3, 2] }
}

/// Algebras, lent lengths, and what the writer then says and writes.
fn examples_to_write() -> Vec<(Algebra, usize, u32, String)> {
    let mut list = Vec::new();
    let mut add = |a: Algebra, lent: usize, reason: u32, text: &str| {
        list.push((a, lent, reason, text.to_string()));
    };
    for (lent, reason, text) in [(26, 0, texts::U), (27, 0, texts::U), (25, 9, ""), (0, 9, "")] {
        add(u(), lent, reason, text);
    }
    add(algebras::bare(64), 10, 0, "[size 64]\n");
    add(algebras::bare(64), 9, 9, "");
    add(algebras::bare(1), 9, 0, "[size 1]\n");
    add(algebras::bare(1), 8, 9, "");
    add(Algebra { n: 3, arities: vec![1], cells: vec![0, 1, 3] }, 0, 6, "");
    let mixed = Algebra { n: 2, arities: vec![0, 2], cells: vec![1, 0, 0, 0, 1] };
    add(mixed, 40, 0, "[size 2]\n[op 0 1]\n[op 2 [[0 0] [0 1]]]\n");
    let single = Algebra { n: 1, arities: vec![3, 0], cells: vec![0, 0] };
    add(single, 40, 0, "[size 1]\n[op 3 [[[0]]]]\n[op 0 0]\n");
    let ternary = Algebra { n: 2, arities: vec![3], cells: vec![0, 1, 1, 0, 1, 0, 0, 1] };
    add(ternary, 60, 0, "[size 2]\n[op 3 [[[0 1] [1 0]] [[1 0] [0 1]]]]\n");
    let constants = Algebra { n: 64, arities: vec![0, 0, 0], cells: vec![63, 9, 10] };
    add(constants.clone(), 38, 9, "");
    add(constants, 39, 0, "[size 64]\n[op 0 63]\n[op 0 9]\n[op 0 10]\n");
    // The longest text of all.
    let largest = Algebra { n: 16, arities: vec![3; 8], cells: vec![15; ROOM] };
    let row = format!("[{}]", ["15"; 16].join(" "));
    let rows = format!("[{}]", vec![row; 16].join(" "));
    let table = format!("[{}]", vec![rows; 16].join(" "));
    let text = format!("[size 16]\n{}", format!("[op 3 {table}]\n").repeat(8));
    assert_eq!(text.len(), 102_738);
    for lent in [102_738, 102_739, 131_178] {
        add(largest.clone(), lent, 0, &text);
    }
    add(largest, 102_737, 9, "");
    list
}

/// Checks what a writer leaves on the examples.
pub fn expect_written(s: &mut Suite, mut writer: impl FnMut(&Algebra, &[u8], &mut Rng) -> (Written, bool)) {
    for (a, length, reason, text) in examples_to_write() {
        let lent = s.rng.bytes(length);
        let mut after = lent.clone();
        after[..text.len()].copy_from_slice(text.as_bytes());
        let wanted = Written { reason, length: text.len(), lent: after };
        let (answer, untouched) = writer(&a, &lent, &mut s.rng);
        s.check(answer == wanted && untouched, || {
            format!("  {a:?} into {length}: reason {}, length {}", answer.reason, answer.length)
        });
    }
}

/// All sizes, arities in all mixes; what is written comes back.
fn writes_all_sizes(library: Texts, s: &mut Suite) {
    let mut c = Comparison::new(library, s);
    for n in 1..=64 {
        for limit in [1, 70, 500, 5000, ROOM] {
            let arities = mixed_arities(n, limit, &mut c.suite.rng);
            let a = with_cells(n, &arities, &mut c.suite.rng);
            let length = algebra_text(&a).len() + c.suite.rng.below(30);
            c.write(&a, length);
            c.round_trip(&a, length);
        }
        for s in 0..=3 {
            if n.pow(s) <= 5000 {
                let a = with_cells(n, &[s as u8], &mut c.suite.rng);
                let length = algebra_text(&a).len();
                c.write(&a, length);
                c.write(&a, length - 1);
            }
        }
        if c.is_over() {
            break;
        }
    }
    c.end("all sizes");
}

fn writes_any(library: Texts, s: &mut Suite) {
    let mut c = Comparison::new(library, s);
    for _ in 0..6000 {
        let a = some_algebra(12, 300, &mut c.suite.rng);
        let exact = algebra_text(&a).len();
        let length = match c.suite.rng.below(6) {
            0 => c.suite.rng.below(exact),
            1 => exact - 1,
            2 => exact + 1,
            3 => exact + c.suite.rng.below(200),
            _ => exact,
        };
        c.write(&a, length);
        if c.suite.rng.once_in(8) {
            c.round_trip(&a, exact + 5);
        }
        if c.is_over() {
            break;
        }
    }
    c.end("any algebra");
}

fn writes_into_any_length(library: Texts, s: &mut Suite) {
    let mut c = Comparison::new(library, s);
    for _ in 0..12 {
        let a = some_algebra(14, 60, &mut c.suite.rng);
        let exact = algebra_text(&a).len();
        for length in 0..exact + 4 {
            c.write(&a, length);
        }
        c.write(&a, 200_000);
        if c.is_over() {
            break;
        }
    }
    for a in full_size(&mut c.suite.rng) {
        let exact = algebra_text(&a).len();
        for length in [0, 1, exact - 1, exact, exact + 1, exact + 40_000] {
            c.write(&a, length);
        }
        c.round_trip(&a, exact);
        if c.is_over() {
            break;
        }
    }
    c.end("lent lengths");
}

/// A row and a table of numbers below 10, and each with one number changed, at
/// every place of a row: a writer may take such rows by a way of its own.
fn writes_short_rows(library: Texts, s: &mut Suite) {
    let mut c = Comparison::new(library, s);
    for n in 1..=64 {
        for s in 1..=2 {
            let mut a = random(n, &[s], &mut c.suite.rng);
            a.cells.iter_mut().for_each(|cell| *cell %= 10);
            c.write_to_the_byte(&a);
            for place in 0..n {
                let row = c.suite.rng.below(a.cells.len() / n);
                for value in [9, 10, n - 1] {
                    let mut other = a.clone();
                    other.cells[n * row + place] = value.min(n - 1) as u8;
                    c.write_to_the_byte(&other);
                }
            }
        }
        if c.is_over() {
            break;
        }
    }
}

fn declines_to_write(library: Texts, s: &mut Suite) {
    let mut c = Comparison::new(library, s);
    let mut seen = [0; 10];
    for _ in 0..8000 {
        let a = broken(&mut c.suite.rng);
        let length = *c.suite.rng.pick(&[0, 1, 8, 30, 400, 4000]);
        seen[c.write(&a, length).reason as usize] += 1;
        if c.is_over() {
            break;
        }
    }
    for reason in [0, 1, 2, 3, 4, 5, 6, 9] {
        c.suite.check(seen[reason] > 0, || format!("  reason {reason} never came"));
    }
    // A single bad cell anywhere among many, with enough lent and with nothing.
    for n in [2, 11, 64] {
        let a = random(n, &[2, 1, 0], &mut c.suite.rng);
        for i in 0..a.cells.len() {
            let mut bad = a.clone();
            bad.cells[i] = n as u8;
            c.write(&bad, if i % 2 == 0 { 20_000 } else { 0 });
        }
    }
}

pub fn suites(run: &mut Run, library: Texts) {
    run.suite(&format!("{} writer: examples and the longest text", library.name), |s| {
        expect_written(s, |a, lent, rng| written(library, a, lent, rng))
    });
    let writer: [(&str, fn(Texts, &mut Suite)); 5] = [
        ("lent lengths", writes_into_any_length),
        ("rows of numbers below 10, and of nearly such", writes_short_rows),
        ("refusals 1 to 6", declines_to_write),
        ("all sizes, and back", writes_all_sizes),
        ("random algebras, and back", writes_any),
    ];
    for (name, suite) in writer {
        run.suite(&format!("{} writer: {name}", library.name), |s| suite(library, s));
    }
}
