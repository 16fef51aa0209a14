//! The reader of algebra texts.

use outside_tests::algebras::random;
use outside_tests::random::Rng;
use outside_tests::reference::algebra::Algebra;
use outside_tests::reference::text::{algebra_text, Read};
use outside_tests::report::{Run, Suite};

use super::{found, full_size, mixed_arities, some_algebra, with_cells, Comparison, HEAD, ROOM};
use crate::compare::Guarded;
use crate::ffi::Texts;
use crate::texts;

/// Texts, and the reason, n, the arities and the cells that the reader finds.
type Example = (&'static str, u32, u8, &'static [u8], &'static [u8]);

const EXAMPLES_TO_READ: [Example; 26] = [
    ("[size 2]\n[op 0 1]\n[op 2 [[0 0] [0 1]]]\n", 0, 2, &[0, 2], &[1, 0, 0, 0, 1]),
    (texts::U, 0, 4, &[1], &[1, 0, 3, 2]),
    ("[size 64]\n", 0, 64, &[], &[]),
    ("[size 1]\n[op 3 [[[0]]]]\n", 0, 1, &[3], &[0]),
    ("[size 13]\n[op 0 12]\n[op 0 9]\n[op 0 10]\n", 0, 13, &[0, 0, 0], &[12, 9, 10]),
    ("", 14, 0, &[], &[]),
    ("\n", 14, 0, &[], &[]),
    ("[size 2]\n\n", 14, 0, &[], &[]),
    ("[size 2]", 14, 0, &[], &[]),
    ("[size 2]\n[decompose]\n", 14, 0, &[], &[]),
    ("[size 2]\n[quotient 0 1]\n", 14, 0, &[], &[]),
    ("[size 2]\n[quotient 0 1]\n[op 0 0]\n", 14, 0, &[], &[]),
    ("[size 2]\n[op 1 [0 2]]\n", 6, 0, &[], &[]),
    ("[size 2]\n[op 4 ", 3, 0, &[], &[]),
    ("[size 2]\n[op 1 [0 2]]\n[op 4 ", 6, 0, &[], &[]),
    ("[size 2]\n[op 1 [0 2]]\n[quit]\n", 6, 0, &[], &[]),
    ("[size 2]\n[op 1 [2 0]\n", 14, 0, &[], &[]),
    ("[size 2]\n[op 1 [0 1]]\n[op 1 [0 1]", 14, 0, &[], &[]),
    ("[size 65]\n", 1, 0, &[], &[]),
    ("[size 0]\n", 1, 0, &[], &[]),
    ("[size 65]\n[decompose]\n", 1, 0, &[], &[]),
    ("[size 65]", 14, 0, &[], &[]),
    ("[size 33]\n[op 3 ", 4, 0, &[], &[]),
    ("[size 2]\n[size 2]\n", 14, 0, &[], &[]),
    ("[op 0 0]\n", 14, 0, &[], &[]),
    ("[op 4 ", 14, 0, &[], &[]),
];

/// Checks what a reader leaves on the examples; lent too little, it is 9 on each.
pub fn expect_read(s: &mut Suite, mut reader: impl FnMut(&[u8], &[u8], &mut Rng) -> (Read, bool)) {
    let room = s.rng.bytes(ROOM + 1);
    let mut expect = |text: &str, lent: &[u8], wanted: Read| {
        let (answer, untouched) = reader(text.as_bytes(), lent, &mut s.rng);
        s.check(answer == wanted && untouched, || {
            format!("  {text:?} into {}: reason {}, head {:?}", lent.len(), answer.reason, answer.head)
        });
    };
    for (text, reason, n, arities, cells) in EXAMPLES_TO_READ {
        let mut head = [0; HEAD];
        head[0] = n;
        head[1] = arities.len() as u8;
        head[2..2 + arities.len()].copy_from_slice(arities);
        for length in [ROOM, ROOM + 1] {
            let mut after = room[..length].to_vec();
            after[..cells.len()].copy_from_slice(cells);
            expect(text, &room[..length], Read { reason, head, cells: cells.len(), lent: after });
        }
        for length in [0, 1, 5, ROOM - 1] {
            let lent = &room[..length];
            expect(text, lent, Read { reason: 9, head: [0; HEAD], cells: 0, lent: lent.to_vec() });
        }
    }
}

/// Heads of other lengths: 255, and nothing is written.
fn wants_a_head(library: Texts, s: &mut Suite) {
    for length in [0, 1, 17, 19, 64] {
        for text in [texts::U, "", "[size 65]\n"] {
            for lent in [ROOM, ROOM - 1] {
                let rng = &mut s.rng;
                let (mut given, mut cells) =
                    (Guarded::new(text.as_bytes(), rng), Guarded::new(&vec![3; lent], rng));
                let mut head = Guarded::new(&rng.bytes(length), rng);
                let tl = given.len();
                let number = unsafe {
                    (library.read)(given.pointer(), tl, cells.pointer(), lent, head.pointer(), length)
                };
                let untouched = given.is_intact() && cells.is_intact() && head.is_intact();
                s.same("a head of another length", (length, number, untouched), (length, 255, true));
            }
        }
    }
}

fn reads_what_is_right(library: Texts, s: &mut Suite) {
    let mut c = Comparison::new(library, s);
    for n in 1..=64 {
        for limit in [1, 300, 3000] {
            let arities = mixed_arities(n, limit, &mut c.suite.rng);
            let a = with_cells(n, &arities, &mut c.suite.rng);
            c.read(algebra_text(&a).as_bytes());
        }
        if c.is_over() {
            break;
        }
    }
    for _ in 0..3000 {
        let a = some_algebra(12, 200, &mut c.suite.rng);
        c.read(algebra_text(&a).as_bytes());
        if c.is_over() {
            break;
        }
    }
}

fn reads_into_any_length(library: Texts, s: &mut Suite) {
    let mut c = Comparison::new(library, s);
    let mut list: Vec<Vec<u8>> =
        full_size(&mut c.suite.rng).iter().map(|a| algebra_text(a).into_bytes()).collect();
    let more = [
        "",
        "\n",
        "[size 65]\n",
        "[size 4",
        "[size 2]\n[op 1 [0 2]]\n",
        "[size 2]\n[op 4 ",
        "[decompose]\n",
        texts::U,
    ];
    list.extend(more.iter().map(|text| text.as_bytes().to_vec()));
    for text in list {
        for length in [0, 1, 4, 4096, 32_766, 32_767, 32_768, 32_769, 65_536, 100_000] {
            let lent = c.suite.rng.bytes(length);
            c.read_into(&text, &lent);
        }
        if c.is_over() {
            break;
        }
    }
    c.end("lent lengths");
}

/// The texts of the desk program: with requests in them they are 14.
fn reads_known_texts(library: Texts, s: &mut Suite) {
    let mut c = Comparison::new(library, s);
    for (text, _) in texts::known() {
        c.read(&text);
    }
    for _ in 0..1500 {
        let text = texts::valid(7, 100, &mut c.suite.rng);
        c.read(&text);
    }
    c.end("known texts");
}

/// Texts that are damaged at every byte: shapes of rows and numbers that a reader
/// may take by ways of its own.
fn to_damage(rng: &mut Rng) -> Vec<Vec<u8>> {
    let mut list = vec![
        Algebra { n: 2, arities: vec![0, 2, 3, 1], cells: vec![1, 0, 1, 1, 0, 0, 1, 1, 0, 1, 0, 0, 1, 1, 0] },
        random(1, &[0, 1, 2, 3], rng),
        random(11, &[2, 0, 1], rng),
        random(64, &[1, 0, 1, 1], rng),
        random(24, &[2], rng),
    ];
    // Rows of one length: numbers of one digit, and of two.
    let mut short = random(16, &[2, 0], rng);
    short.cells.iter_mut().for_each(|c| *c %= 10);
    let mut long = random(17, &[2, 0, 1], rng);
    long.cells.iter_mut().for_each(|c| *c = 10 + *c % 7);
    list.extend([short, long]);
    list.iter().map(|a| algebra_text(a).into_bytes()).collect()
}

fn reads_damaged_everywhere(library: Texts, s: &mut Suite) {
    let mut c = Comparison::new(library, s);
    for text in to_damage(&mut c.suite.rng) {
        for at in 0..text.len() {
            c.read(&text[..at]);
            let mut less = text.clone();
            less.remove(at);
            c.read(&less);
            let mut twice = text.clone();
            twice.insert(at, text[at]);
            c.read(&twice);
            let own = text[at];
            for new in [
                own ^ 1,
                own ^ 0x80,
                own.wrapping_add(1),
                0,
                b' ',
                b'\n',
                b'[',
                b']',
                b'0',
                b'1',
                b'9',
                b'/',
                b':',
            ] {
                let mut changed = text.clone();
                changed[at] = new;
                c.read(&changed);
            }
            if c.is_over() {
                return;
            }
        }
        c.read(&text);
    }
    c.end("damaged texts");
}

/// The numbers of a row, as they are written: a reader may take rows of some shapes
/// by ways of its own.
fn row(shape: usize, n: usize, rng: &mut Rng) -> Vec<String> {
    let largest = if n > 10 { n - 1 } else { 99 };
    let mut numbers: Vec<String> = Vec::new();
    for _ in 0..n {
        let is_long = match shape {
            0 => false,
            1 | 4 | 5 => true,
            _ => rng.once_in(2),
        };
        let value = if is_long { rng.within(10, largest) } else { rng.below(n.min(10)) };
        numbers.push(value.to_string());
    }
    let at = rng.below(n);
    match shape {
        // One number of another length, with a leading zero, or of three digits.
        3 => numbers[at] = rng.within(100, 300).to_string(),
        4 => numbers[at] = format!("0{}", rng.below(10)),
        5 => numbers[at] = rng.below(10).to_string(),
        _ => {}
    }
    numbers
}

/// Rows of every length and of several shapes: right, cut at every place, so that
/// each of its bytes is once the text's last, and damaged there.
fn reads_rows(library: Texts, s: &mut Suite) {
    let mut c = Comparison::new(library, s);
    for n in 1..=64 {
        for shape in 0..6 {
            let front = format!("[size {n}]\n[op 1 [");
            let items = row(shape, n, &mut c.suite.rng).join(" ");
            let text = format!("{front}{items}]]\n").into_bytes();
            c.read(&text);
            for at in front.len()..text.len() {
                c.read(&text[..at]);
                for new in *b" 0:/]" {
                    let mut changed = text.clone();
                    changed[at] = new;
                    c.read(&changed);
                }
                for new in *b" 05" {
                    let mut more = text.clone();
                    more.insert(at, new);
                    c.read(&more);
                }
            }
            if c.is_over() {
                return;
            }
        }
    }
    c.end("rows");
}

/// A line between any two lines of a text, and before and behind them.
fn reads_lines_between(library: Texts, s: &mut Suite) {
    let mut c = Comparison::new(library, s);
    let lines = [
        "[generate]\n",
        "[generate [0 1]]\n",
        "[contained]\n",
        "[contained 0 1 0 1]\n",
        "[separate 0 1]\n",
        "[decompose]\n",
        "[quotient 0 1 0 1]\n",
        "[quotient]\n",
        "[quotient ]\n",
        "[quotient 300]\n",
        "[generate [0 1]\n",
        "[decompose",
        "[quotient 0 1 0 1]",
        "[size 4]\n",
        "[size 5]\n",
        "[size 65]\n",
        "[op 0 0]\n",
        "[op 0 4]\n",
        "[op 4 0]\n",
        "[op 4 ",
        "[op 3 [",
        "[op]\n",
        "[op ]\n",
        "[op 1 [0 1 2 3]]",
        "[quit]\n",
        "\n",
        " \n",
        "[]\n",
        "\r\n",
        "\0\n",
        "#\n",
    ];
    let text = "[size 4]\n[op 0 3]\n[op 1 [1 0 3 2]]\n[op 2 [[0 0 0 0] [0 1 1 1] [0 1 2 2] [0 1 2 3]]]\n";
    let whole: Vec<&str> = text.split_inclusive('\n').collect();
    for line in lines {
        for other in lines {
            for at in 0..=whole.len() {
                let (before, behind) = (whole[..at].concat(), whole[at..].concat());
                c.read(format!("{before}{line}{behind}").as_bytes());
                c.read(format!("{before}{line}{other}{behind}").as_bytes());
            }
        }
        if c.is_over() {
            return;
        }
    }
    c.end("lines between");
}

fn reads_damaged_anyhow(library: Texts, s: &mut Suite) {
    let mut c = Comparison::new(library, s);
    for _ in 0..20_000 {
        let limit = if c.suite.rng.once_in(10) { 64 } else { 6 };
        let mut text = algebra_text(&some_algebra(limit, 100, &mut c.suite.rng)).into_bytes();
        for _ in 0..c.suite.rng.within(1, 2) {
            text = texts::damaged(&text, &mut c.suite.rng);
        }
        c.read(&text);
        if c.is_over() {
            return;
        }
    }
    for length in [1, 10, 1000, 70_000] {
        for byte in [0, b'[', b']', b' ', b'\n', b'0', b'9', 255] {
            c.read(&vec![byte; length]);
            c.read(&[b"[size 4]\n".to_vec(), vec![byte; length]].concat());
            c.read(&[b"[size 4]\n[op 2 ".to_vec(), vec![byte; length]].concat());
        }
        let bytes = c.suite.rng.bytes(length);
        c.read(&bytes);
    }
    c.end("damaged texts");
}

/// Texts beyond 65,536 bytes: right ones, and ones with a fault near the end.
fn reads_long_texts(library: Texts, s: &mut Suite) {
    let mut c = Comparison::new(library, s);
    let mut long = 0;
    for a in full_size(&mut c.suite.rng) {
        let text = algebra_text(&a).into_bytes();
        long += (text.len() > 65_536) as u32;
        c.read(&text);
        for less in 1..8.min(text.len()) {
            c.read(&text[..text.len() - less]);
        }
        for behind in [
            "[decompose]\n",
            "[op 0 0]\n",
            "[op 0 64]\n",
            "[op 1 [0]]\n",
            "[op 3 [",
            "[op 4 ",
            "\n",
            "x",
            "[size 4]\n",
        ] {
            c.read(&[text.clone(), behind.as_bytes().to_vec()].concat());
        }
        for _ in 0..20 {
            let bytes = texts::damaged(&text, &mut c.suite.rng);
            c.read(&bytes);
        }
        // A cell that is too large, and behind its line a fault.
        let bad = Algebra { cells: a.cells.iter().map(|&cell| cell.max(a.n as u8)).collect(), ..a.clone() };
        let bad = algebra_text(&bad).into_bytes();
        c.read(&bad);
        c.read(&bad[..bad.len() - 1]);
        c.read(&[bad, b"[quit]\n".to_vec()].concat());
        if c.is_over() {
            return;
        }
    }
    c.suite.check(long >= 4, || format!("  only {long} texts of more than 65,536 bytes"));
    c.end("long texts");
}

pub fn suites(run: &mut Run, library: Texts) {
    run.suite(&format!("{} reader: examples", library.name), |s| {
        expect_read(s, |text, lent, rng| found(library, text, lent, rng))
    });
    let reader: [(&str, fn(Texts, &mut Suite)); 9] = [
        ("heads of another length", wants_a_head),
        ("lent lengths", reads_into_any_length),
        ("the desk program's texts", reads_known_texts),
        ("right texts", reads_what_is_right),
        ("rows of every length and shape", reads_rows),
        ("lines put between", reads_lines_between),
        ("texts damaged at every byte", reads_damaged_everywhere),
        ("damaged texts", reads_damaged_anyhow),
        ("long texts", reads_long_texts),
    ];
    for (name, suite) in reader {
        run.suite(&format!("{} reader: {name}", library.name), |s| suite(library, s));
    }
}
