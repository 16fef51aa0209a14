//! The desk program against the reference's transcript.

use std::fs::File;
use std::io::{Read, Write};
use std::process::{Command, Stdio};
use std::time::Duration;

use outside_tests::algebras;
use outside_tests::random::Rng;
use outside_tests::reference::algebra::Algebra;
use outside_tests::reference::desk::transcript;
use outside_tests::reference::map;
use outside_tests::reference::text::algebra_text;
use outside_tests::report::{Run, Suite};

use crate::texts;

/// Runs the program on an input that comes in pieces of this length: what it
/// wrote, and whether it ended well.
fn run_in_pieces(program: &str, input: &[u8], piece: usize) -> (Vec<u8>, bool) {
    let mut child = Command::new(program)
        .stdin(Stdio::piped())
        .stdout(Stdio::piped())
        .spawn()
        .unwrap_or_else(|error| panic!("{program}: {error}"));
    let mut stdin = child.stdin.take().unwrap();
    let mut stdout = child.stdout.take().unwrap();
    let mut output = Vec::new();
    std::thread::scope(|scope| {
        // A program may end before it has read all: its input is then closed.
        scope.spawn(move || {
            for part in input.chunks(piece) {
                if stdin.write_all(part).is_err() {
                    break;
                }
                if piece < input.len() {
                    std::thread::sleep(Duration::from_micros(300));
                }
            }
        });
        stdout.read_to_end(&mut output).unwrap();
    });
    (output, child.wait().unwrap().success())
}

/// What the program writes for an input.
pub fn answer(program: &str, input: &[u8]) -> Vec<u8> {
    run_in_pieces(program, input, usize::MAX).0
}

/// Gives what was expected.
fn compare(s: &mut Suite, program: &str, input: &[u8]) -> Vec<u8> {
    let expected = transcript(input);
    expect(s, program, input, &expected);
    expected
}

fn expect(s: &mut Suite, program: &str, input: &[u8], expected: &[u8]) {
    expect_in_pieces(s, program, input, expected, usize::MAX);
}

fn expect_in_pieces(s: &mut Suite, program: &str, input: &[u8], expected: &[u8], piece: usize) {
    let (found, ended_well) = run_in_pieces(program, input, piece);
    s.check(found == expected && ended_well, || {
        format!("{}\n  ended well: {ended_well}", texts::difference(input, &found, expected))
    });
}

/// A text that asks for several quotients of one algebra: maps of all kinds.
fn with_quotients(algebra: &Algebra, count: usize, rng: &mut Rng) -> Vec<u8> {
    let mut text = algebra_text(algebra);
    for _ in 0..count {
        let congruence = !rng.once_in(3);
        text += &format!("[quotient{}]\n", texts::map_words(algebra, congruence, rng));
    }
    text.into_bytes()
}

fn quotients(s: &mut Suite, program: &str) {
    let mut answers = Vec::new();
    for round in 0..1500 {
        let algebra = algebras::any(9, 200, &mut s.rng).algebra;
        let text = with_quotients(&algebra, 1 + round % 4, &mut s.rng);
        answers.extend(compare(s, program, &text));
        if s.is_over() {
            return;
        }
    }
    // All sizes, and up to sixteen operations of every arity.
    for n in 1..=64usize {
        let mut arities = Vec::new();
        let mut rest = 9000;
        for _ in 0..s.rng.below(17) {
            let arity = s.rng.below(4);
            if n.pow(arity as u32) <= rest {
                rest -= n.pow(arity as u32);
                arities.push(arity as u8);
            }
        }
        let blocks = s.rng.within(1, n);
        for algebra in [
            algebras::lifted(n, blocks, &arities, &mut s.rng),
            algebras::random(n, &arities, &mut s.rng),
            algebras::projection(n, 2, 1),
        ] {
            let text = with_quotients(&algebra, 4, &mut s.rng);
            answers.extend(compare(s, program, &text));
        }
    }
    for one in algebras::structured(8, &mut s.rng) {
        let text = with_quotients(&one.algebra, 3, &mut s.rng);
        answers.extend(compare(s, program, &text));
        if s.is_over() {
            return;
        }
    } // Every kind of answer must have come, and often.
    let answers = String::from_utf8(answers).unwrap();
    for kind in ["[size ", "[refused 8]", "[refused 12]", "[refused 14]"] {
        let count = answers.matches(kind).count();
        s.check(count > 100, || format!("  only {count} times {kind}"));
    }
}

/// Answers as long as the program can give.
fn long_quotients(s: &mut Suite, program: &str) {
    let (text, answer) = texts::longest_answer();
    expect(s, program, &text, &answer);
    expect_in_pieces(s, program, &text, &answer, 4096);
    // One byte too long, and one with another request behind it.
    compare(s, program, &[text.clone(), b"\n".to_vec()].concat());
    compare(s, program, &text[..text.len() - 1]);
    let projection =
        Algebra { n: 64, arities: vec![2; 4], cells: algebras::projection(64, 2, 0).cells.repeat(4) };
    for algebra in
        [algebras::chain(64), algebras::median(25), algebras::elementary(6), projection, algebras::bare(64)]
    {
        let n = algebra.n;
        let halves: Vec<usize> = (0..n).map(|x| x % 2).collect();
        for map in [map::identity(n), map::all(n), map::of_labels(&halves)] {
            let line = format!("[quotient {}]\n", texts::words(&map));
            compare(
                s,
                program,
                format!("{}{line}{line}{line}[decompose]\n", algebra_text(&algebra)).as_bytes(),
            );
        }
    }
    // Many requests: more is written than is read.
    let request = format!("[quotient {}]\n", texts::words(&map::identity(4)));
    compare(s, program, format!("{}{}", texts::U, request.repeat(3000)).as_bytes());
    let wide = algebras::random(10, &[3, 3, 3], &mut s.rng);
    let request = format!("[quotient {}]\n", texts::words(&map::identity(10)));
    compare(s, program, format!("{}{}", algebra_text(&wide), request.repeat(1500)).as_bytes());
}

/// Where the program's storage for short texts ends, and a run goes on in another: texts of 32,768 bytes, algebras of
/// 9,152 cells, and some on either side, with requests behind them that need every table.
fn long_runs(s: &mut Suite, program: &str) {
    for length in 32_764..=32_772 {
        compare(s, program, &texts::of_length(length));
    }
    let shapes: [(usize, Vec<u8>); 8] = [
        (16, [vec![3; 2], vec![2; 3], vec![1; 11]].concat()), // 9,136 cells
        (18, [vec![3], vec![2; 10], vec![1; 4], vec![0]].concat()), // 9,145
        (39, [vec![2; 6], vec![1]].concat()),                 // 9,165
        (21, [vec![3], vec![1; 5]].concat()),                 // 9,366
        (56, vec![2; 3]),
        (22, [vec![0], vec![3], vec![1]].concat()),
        (64, [vec![2; 2], vec![1; 14]].concat()),
        (1, vec![3; 16]),
    ];
    for (n, arities) in shapes {
        for blocks in [2.min(n), n] {
            let algebra = algebras::lifted(n, blocks, &arities, &mut s.rng);
            let mut text = String::from_utf8(with_quotients(&algebra, 2, &mut s.rng)).unwrap();
            for _ in 0..12 {
                text += &texts::request(&algebra, &mut s.rng);
            }
            compare(s, program, text.as_bytes());
            text.truncate(text.len() - 1);
            compare(s, program, text.as_bytes());
        }
    }
}

/// Decompose, Quotient by each factor, and Decompose on what was written: 11.
fn fed_back(s: &mut Suite, program: &str) {
    let mut list: Vec<Algebra> =
        algebras::structured(24, &mut s.rng).into_iter().map(|one| one.algebra).collect();
    list.extend((0..60).map(|_| algebras::any(10, 300, &mut s.rng).algebra));
    list.extend([algebras::boolean(6), algebras::elementary(6), algebras::dihedral(32)]);
    let mut factors = 0;
    for algebra in list {
        let text = algebra_text(&algebra);
        let list = answer(program, format!("{text}[decompose]\n").as_bytes());
        let list = String::from_utf8_lossy(&list).into_owned();
        let Some(maps) = list.strip_prefix("[factors [") else {
            s.check(list.starts_with("[refused 11 "), || format!("  {text}  is answered {list}"));
            continue;
        };
        for map in maps.trim_end_matches("]]\n").split("] [") {
            let quotient = answer(program, format!("{text}[quotient {map}]\n").as_bytes());
            let again = [quotient.clone(), b"[decompose]\n".to_vec()].concat();
            let last = answer(program, &again);
            let good = quotient.starts_with(b"[size ") && last.starts_with(b"[refused 11 ");
            s.check(good && last == transcript(&again), || {
                format!(
                    "  {text}  by {map} is\n  {}\n  and that is answered {}",
                    quotient.escape_ascii(),
                    last.escape_ascii()
                )
            });
            factors += 1;
        }
        if s.is_over() {
            return;
        }
    }
    s.check(factors > 200, || format!("  only {factors} factors"));
}

/// The text cut, and changed at every byte.
fn changed_everywhere(s: &mut Suite, program: &str, text: &[u8]) {
    for at in 0..text.len() {
        compare(s, program, &text[..at]);
        for new in [text[at] ^ 1, text[at] ^ 0x80, 0, b' ', b'\n', b']', b'7'] {
            let mut changed = text.to_vec();
            changed[at] = new;
            compare(s, program, &changed);
        }
        let mut less = text.to_vec();
        less.remove(at);
        compare(s, program, &less);
        if s.is_over() {
            break;
        }
    }
}

pub fn suites(run: &mut Run, program: &str) {
    run.suite("desk: texts with their answers", |s| {
        for (input, output) in texts::known() {
            expect(s, program, &input, &output);
        }
    });
    run.suite("desk: valid texts", |s| {
        for _ in 0..1500 {
            let text = texts::valid(8, 300, &mut s.rng);
            compare(s, program, &text);
            if s.is_over() {
                break;
            }
        }
        for _ in 0..80 {
            let text = texts::valid(64, 8000, &mut s.rng);
            compare(s, program, &text);
        }
    });
    run.suite("desk: the worked text cut and changed at every byte", |s| {
        changed_everywhere(s, program, &texts::worked());
    });
    run.suite("desk: quotients", |s| quotients(s, program));
    run.suite("desk: a text with quotients cut and changed at every byte", |s| {
        let text = format!("{}[quotient 0 1 0 1]\n[quotient 0 1 0 3]\n[quotient 0]\n[decompose]\n", texts::U);
        changed_everywhere(s, program, text.as_bytes());
    });
    run.suite("desk: quotients with long answers", |s| long_quotients(s, program));
    run.suite("desk: runs that outgrow the storage for short texts", |s| long_runs(s, program));
    run.suite("desk: factors fed back", |s| fed_back(s, program));
    run.suite("desk: damaged texts", |s| {
        for _ in 0..8000 {
            let mut text = texts::valid(6, 100, &mut s.rng);
            for _ in 0..s.rng.within(1, 2) {
                text = texts::damaged(&text, &mut s.rng);
            }
            compare(s, program, &text);
            if s.is_over() {
                break;
            }
        }
    });
    run.suite("desk: long texts", |s| {
        let many = "[decompose]\n".repeat(5000);
        for algebra in [algebras::bare(2), algebras::bare(3), algebras::chain(12), algebras::boolean(3)] {
            compare(s, program, format!("{}{many}", algebra_text(&algebra)).as_bytes());
        }
        let faults = "[separate 1 1]\n".repeat(4000);
        compare(s, program, format!("[size 3]\n{faults}").as_bytes());
        compare(s, program, format!("[size 3]\n{faults}[separate 1 1]").as_bytes());
        for length in [65_534, 65_535, 65_536, 65_537, 65_538, 200_000] {
            let text = texts::of_length(length);
            compare(s, program, &text);
            let mut cut = text.clone();
            cut.pop();
            compare(s, program, &cut);
            let mut wild = text;
            let last = wild.len() - 1;
            wild[last] = 0;
            compare(s, program, &wild);
        }
        for count in [1000, 5000, 9000] {
            let pairs: String = (0..count).map(|i| format!(" [{} {}]", i % 3, i % 5)).collect();
            compare(s, program, format!("[size 8]\n[generate{pairs}]\n[decompose]\n").as_bytes());
            let numbers = " 1".repeat(count);
            compare(s, program, format!("[size 8]\n[contained{numbers}]\n[decompose]\n").as_bytes());
        }
        for length in [1000, 65_536, 100_000] {
            compare(s, program, &vec![0; length]);
            compare(s, program, &vec![b'['; length]);
            compare(s, program, &vec![b'\n'; length]);
            let bytes = s.rng.bytes(length);
            compare(s, program, &bytes);
        }
    });
    run.suite("desk: input in pieces, and none", |s| {
        let worked = texts::worked();
        for piece in [1, 7, 50] {
            expect_in_pieces(s, program, &worked, &transcript(&worked), piece);
        }
        for length in [30_000, 65_536, 65_537, 70_001] {
            let text = texts::of_length(length);
            for piece in [997, 4096, 65_536] {
                expect_in_pieces(s, program, &text, &transcript(&text), piece);
            }
        }
        // Nothing to read, and a read that fails: a directory.
        for input in [Stdio::null(), Stdio::from(File::open(".").unwrap())] {
            let done = Command::new(program).stdin(input).output().unwrap();
            s.same("no input", (done.stdout, done.status.success()), (b"[refused 14]\n".to_vec(), true));
        }
    });
    run.suite("desk: full-size answers", |s| {
        let many = "[decompose]\n[generate [0 63]]\n[separate 0 63]\n".repeat(300);
        compare(s, program, format!("[size 64]\n{many}").as_bytes());
        compare(s, program, format!("[size 64]\n{}", "[decompose]\n".repeat(5000)).as_bytes());
        let mut chain = algebras::chain(64);
        chain.arities.pop();
        chain.cells.truncate(4096);
        compare(s, program, format!("{}{many}", algebra_text(&chain)).as_bytes());
    });
}
