//! The writer and the reader of algebra texts against the reference: the number
//! that comes back and every lent byte, with guard bytes around each slice.

mod reader;
mod writer;

use outside_tests::algebras::{self, random};
use outside_tests::random::Rng;
use outside_tests::reference::algebra::Algebra;
use outside_tests::reference::plain::Plain;
use outside_tests::reference::text::{algebra_text, read, write, Read, Written};
use outside_tests::reference::Engine;
use outside_tests::report::{Run, Suite};

use crate::compare::Guarded;
use crate::desk;
use crate::ffi::Texts;
use crate::texts;

/// What the reader wants lent.
const ROOM: usize = 32_768;

const HEAD: usize = 18;

// ---- one call ------------------------------------------------------------------

/// What the library's writer leaves, and whether all else was left alone.
fn written(library: Texts, a: &Algebra, lent: &[u8], rng: &mut Rng) -> (Written, bool) {
    let (mut arities, mut cells) = (Guarded::new(&a.arities, rng), Guarded::new(&a.cells, rng));
    let mut out = Guarded::new(lent, rng);
    let (al, cl, ol) = (arities.len(), cells.len(), out.len());
    let number =
        unsafe { (library.write)(a.n, arities.pointer(), al, cells.pointer(), cl, out.pointer(), ol) };
    let untouched = arities.is_intact() && cells.is_intact() && out.is_intact_around();
    let (reason, length) = ((number % 256) as u32, (number / 256) as usize);
    (Written { reason, length, lent: out.content() }, untouched)
}

/// What the library's reader leaves, and whether all else was left alone.
fn found(library: Texts, text: &[u8], lent: &[u8], rng: &mut Rng) -> (Read, bool) {
    let (mut given, mut cells) = (Guarded::new(text, rng), Guarded::new(lent, rng));
    let mut head = Guarded::new(&rng.bytes(HEAD), rng);
    let (tl, cl) = (given.len(), cells.len());
    let number = unsafe { (library.read)(given.pointer(), tl, cells.pointer(), cl, head.pointer(), HEAD) };
    let untouched = given.is_intact() && cells.is_intact_around() && head.is_intact_around();
    let (reason, count) = ((number % 256) as u32, (number / 256) as usize);
    let head = head.content().try_into().unwrap();
    (Read { reason, head, cells: count, lent: cells.content() }, untouched)
}

/// The bytes that differ, as place, byte before, byte found, byte expected.
fn places(before: &[u8], found: &[u8], expected: &[u8]) -> Vec<(usize, u8, u8, u8)> {
    (0..before.len())
        .filter(|&i| found[i] != expected[i])
        .map(|i| (i, before[i], found[i], expected[i]))
        .collect()
}

// ---- comparisons ---------------------------------------------------------------

struct Comparison<'a> {
    library: Texts,
    suite: &'a mut Suite,
    /// To lend to the reader: random bytes, 64 more than it wants.
    room: Vec<u8>,
    accepted: u32,
    refused: u32,
}

impl Comparison<'_> {
    fn new(library: Texts, suite: &mut Suite) -> Comparison<'_> {
        let room = suite.rng.bytes(ROOM + 64);
        Comparison { library, suite, room, accepted: 0, refused: 0 }
    }

    fn count(&mut self, reason: u32) {
        if reason == 0 {
            self.accepted += 1;
        } else {
            self.refused += 1;
        }
    }

    /// One call of the writer, lent so many bytes.
    fn write(&mut self, a: &Algebra, length: usize) -> Written {
        let lent = self.suite.rng.bytes(length);
        let wanted = write(a.n, &a.arities, &a.cells, &lent);
        let (answer, untouched) = written(self.library, a, &lent, &mut self.suite.rng);
        self.suite.check(answer == wanted && untouched, || {
            format!(
                "  write {a:?} into {length} bytes\n  found    reason {}, length {}\n  expected reason {}, length {}\n  \
                 bytes {:?}\n  all else untouched: {untouched}",
                answer.reason,
                answer.length,
                wanted.reason,
                wanted.length,
                places(&lent, &answer.lent, &wanted.lent)
            )
        });
        self.count(wanted.reason);
        wanted
    }

    /// Two calls of the writer: lent as many bytes as the text has, and one more.
    fn write_to_the_byte(&mut self, a: &Algebra) {
        let exact = algebra_text(a).len();
        self.write(a, exact);
        self.write(a, exact + 1);
    }

    /// One call of the reader, lent these bytes.
    fn read_into(&mut self, text: &[u8], lent: &[u8]) -> Read {
        let wanted = read(text, lent);
        let (answer, untouched) = found(self.library, text, lent, &mut self.suite.rng);
        self.suite.check(answer == wanted && untouched, || {
            format!(
                "  read {}\n  into {} bytes\n  found    reason {}, head {:?}, cells {}\n  \
                 expected reason {}, head {:?}, cells {}\n  bytes {:?}\n  all else untouched: {untouched}",
                text.escape_ascii(),
                lent.len(),
                answer.reason,
                answer.head,
                answer.cells,
                wanted.reason,
                wanted.head,
                wanted.cells,
                places(lent, &answer.lent, &wanted.lent)
            )
        });
        self.count(wanted.reason);
        wanted
    }

    fn read(&mut self, text: &[u8]) -> Read {
        let length = ROOM + *self.suite.rng.pick(&[0, 0, 1, 64]);
        let lent = self.room[..length].to_vec();
        self.read_into(text, &lent)
    }

    /// What the library wrote, read back by it, must be the algebra.
    fn round_trip(&mut self, a: &Algebra, length: usize) {
        let lent = self.suite.rng.bytes(length);
        let (out, _) = written(self.library, a, &lent, &mut self.suite.rng);
        let room = self.room.clone();
        let (back, _) = found(self.library, &out.lent[..out.length.min(length)], &room, &mut self.suite.rng);
        let arities = back.head[2..2 + (back.head[1] as usize).min(16)].to_vec();
        let cells = back.lent[..back.cells.min(ROOM)].to_vec();
        let algebra = Algebra { n: back.head[0] as usize, arities, cells };
        self.suite.check(out.reason == 0 && back.reason == 0 && algebra == *a, || {
            format!(
                "  {a:?}\n  was written with reason {}, and read with reason {} as\n  {algebra:?}",
                out.reason, back.reason
            )
        });
    }

    fn is_over(&self) -> bool {
        self.suite.is_over()
    }

    /// Both accepted and refused calls must have been made.
    fn end(self, what: &str) {
        self.suite.check(self.accepted > 0 && self.refused > 0, || {
            format!("  {what}: {} accepted, {} refused", self.accepted, self.refused)
        });
    }
}

// ---- algebras ------------------------------------------------------------------

/// Arities of up to 16 operations whose tables have at most `limit` cells.
fn mixed_arities(n: usize, limit: usize, rng: &mut Rng) -> Vec<u8> {
    let wanted = if rng.once_in(4) { 16 } else { rng.below(17) };
    let most = rng.within(1, 4);
    let mut rest = limit;
    let mut arities = Vec::new();
    for _ in 0..wanted {
        let s = rng.below(most) as u8;
        if n.pow(s as u32) <= rest {
            rest -= n.pow(s as u32);
            arities.push(s);
        }
    }
    arities
}

/// Random cells: any, below 10, of two digits, all the largest, few of two digits.
fn with_cells(n: usize, arities: &[u8], rng: &mut Rng) -> Algebra {
    let mut a = random(n, arities, rng);
    match rng.below(5) {
        0 => a.cells.iter_mut().for_each(|c| *c %= 10),
        1 if n > 10 => a.cells.iter_mut().for_each(|c| *c = 10 + *c % (n - 10) as u8),
        2 => a.cells.fill(n as u8 - 1),
        3 => {
            for c in &mut a.cells {
                if !rng.once_in(30) {
                    *c %= 10;
                }
            }
        }
        _ => {}
    }
    a
}

fn some_algebra(limit: usize, cells: usize, rng: &mut Rng) -> Algebra {
    let n = rng.within(1, limit);
    let arities = mixed_arities(n, cells, rng);
    with_cells(n, &arities, rng)
}

/// Algebras at the edges: the least, the longest texts, all cells that may be.
fn full_size(rng: &mut Rng) -> Vec<Algebra> {
    let mut list = vec![
        algebras::bare(1),
        algebras::bare(64),
        random(64, &[0; 16], rng),
        random(64, &[1; 16], rng),
        random(64, &[2; 8], rng),
        random(32, &[3], rng),
        random(16, &[3; 8], rng),
        random(11, &[3; 16], rng),
        random(10, &[3; 16], rng),
        random(1, &[3; 16], rng),
        random(63, &[2, 2, 2, 2, 2, 2, 2, 2, 1, 0], rng),
        random(31, &[3, 2, 2, 1, 0, 0], rng),
    ];
    let mut largest = list[6].clone();
    largest.cells.fill(15);
    let mut short = list[4].clone();
    short.cells.fill(7);
    let mut long = list[5].clone();
    long.cells.fill(31);
    list.extend([largest, short, long]);
    list
}

// ---- suites --------------------------------------------------------------------

pub fn suites(run: &mut Run, library: Texts) {
    writer::suites(run, library);
    reader::suites(run, library);
}

/// The library writes an algebra, the desk program writes a quotient of it by a
/// congruence, the library reads that and writes it again.
fn writes_asks_and_reads(library: Texts, program: &str, s: &mut Suite) {
    let room = s.rng.bytes(ROOM);
    for round in 0..400 {
        let (limit, cells) = if round % 10 == 0 { (64, 9000) } else { (9, 300) };
        let a = algebras::any(limit, cells, &mut s.rng).algebra;
        let lent = s.rng.bytes(60_000);
        let (out, _) = written(library, &a, &lent, &mut s.rng);
        let engine = Plain::new(&a);
        let congruence = engine.least(&[(s.rng.below(a.n), s.rng.below(a.n))]);
        let (cells, b) = engine.quotient(&congruence);
        let request = format!("[quotient {}]\n", texts::words(&congruence)).into_bytes();
        let answer = desk::answer(program, &[&out.lent[..out.length], &request].concat());
        let (back, _) = found(library, &answer, &room, &mut s.rng);
        let arities = back.head[2..2 + (back.head[1] as usize).min(16)].to_vec();
        let quotient = Algebra { n: back.head[0] as usize, arities, cells: back.lent[..back.cells].to_vec() };
        let wanted = Algebra { n: b, arities: a.arities.clone(), cells };
        let (again, _) = written(library, &quotient, &lent, &mut s.rng);
        let good = back.reason == 0 && quotient == wanted && again.lent[..again.length] == answer;
        s.check(good, || {
            format!(
                "  {a:?} by {congruence:?}\n  was written {}\n  and read {quotient:?}",
                answer.escape_ascii()
            )
        });
        if s.is_over() {
            return;
        }
    }
}

pub fn suites_with_desk(run: &mut Run, library: Texts, program: &str) {
    run.suite(&format!("{} and desk: algebras written, quotients read back", library.name), |s| {
        writes_asks_and_reads(library, program, s)
    });
}

/// The length of an accepted algebra's text by its definition over arities.
fn length_by_arities(a: &Algebra) -> usize {
    let digits = |value: usize| value.to_string().len();
    let mut length = 8 + digits(a.n);
    for (s, table) in a.operations() {
        // A table of arity s takes n + 1 bytes and its n tables.
        let around = (0..s).fold(0, |inner, _| a.n + 1 + a.n * inner);
        length += 8 + around + table.iter().map(|&cell| digits(cell as usize)).sum::<usize>();
    }
    length
}

/// The reference itself.
pub fn reference_suites(run: &mut Run) {
    run.suite("reference: document 02's examples of texts", |s| {
        writer::expect_written(s, |a, lent, _| (write(a.n, &a.arities, &a.cells, lent), true));
        reader::expect_read(s, |text, lent, _| (read(text, lent), true));
    });
    run.suite("reference: what is written has its length and comes back", |s| {
        let room = vec![1; ROOM];
        let mut list = full_size(&mut s.rng);
        list.extend((0..2000).map(|_| some_algebra(14, 300, &mut s.rng)));
        for a in list {
            let text = algebra_text(&a);
            s.same("length", text.len(), length_by_arities(&a));
            let back = read(text.as_bytes(), &room);
            let found = (
                back.reason,
                back.head[0] as usize,
                &back.head[2..2 + a.arities.len()],
                &back.lent[..back.cells],
            );
            s.check(found == (0, a.n, &a.arities[..], &a.cells[..]), || {
                format!("  {a:?}\n  came back as {found:?}")
            });
        }
    });
}
