//! The four C functions of a static library against the reference: the number
//! that comes back and every lent byte, with guard bytes around each slice.

use std::time::Instant;

use outside_tests::algebras::{self, Named};
use outside_tests::random::Rng;
use outside_tests::reference::algebra::{reason, Algebra};
use outside_tests::reference::map::{blocks, identity, is_map};
use outside_tests::reference::plain::Plain;
use outside_tests::reference::service::{Answer, Reference};
use outside_tests::reference::Engine;
use outside_tests::report::{Run, Suite};

use crate::ffi::{Library, WithMaps, WithSlice};

#[derive(Clone, Debug)]
pub enum Question {
    Generate(Vec<u8>),
    Contained(Vec<u8>),
    Separate(usize, usize),
    Decompose,
}

/// One call, whole.
#[derive(Clone, Debug)]
pub struct Call {
    pub n: usize,
    pub arities: Vec<u8>,
    pub cells: Vec<u8>,
    pub question: Question,
    pub lent: Vec<u8>,
}

const GUARD: usize = 48;

/// A slice to lend, with bytes before and after it that nobody may touch.
pub struct Guarded {
    now: Vec<u8>,
    before: Vec<u8>,
    len: usize,
    empty: *mut u8,
}

impl Guarded {
    pub fn new(content: &[u8], rng: &mut Rng) -> Guarded {
        let before = [rng.bytes(GUARD), content.to_vec(), rng.bytes(GUARD)].concat();
        // The pointer of an empty slice is not looked at: often it is none.
        let empty = [0usize, 1, usize::MAX, GUARD][rng.below(4)] as *mut u8;
        Guarded { now: before.clone(), before, len: content.len(), empty }
    }

    pub fn pointer(&mut self) -> *mut u8 {
        if self.len == 0 && self.empty as usize != GUARD {
            self.empty
        } else {
            unsafe { self.now.as_mut_ptr().add(GUARD) }
        }
    }

    pub fn len(&self) -> usize {
        self.len
    }

    pub fn content(&self) -> Vec<u8> {
        self.now[GUARD..GUARD + self.len].to_vec()
    }

    pub fn is_intact(&self) -> bool {
        self.now == self.before
    }

    pub fn is_intact_around(&self) -> bool {
        let end = GUARD + self.len;
        self.now[..GUARD] == self.before[..GUARD] && self.now[end..] == self.before[end..]
    }
}

/// Makes the call. The answer, and whether all else was left alone.
pub fn ask(library: &Library, call: &Call, rng: &mut Rng) -> (Answer, bool) {
    let mut arities = Guarded::new(&call.arities, rng);
    let mut cells = Guarded::new(&call.cells, rng);
    let extra = match &call.question {
        Question::Generate(bytes) | Question::Contained(bytes) => bytes.as_slice(),
        _ => &[],
    };
    let mut slice = Guarded::new(extra, rng);
    let mut out = Guarded::new(&call.lent, rng);
    let (n, al, cl, sl, ol) = (call.n, arities.len(), cells.len(), slice.len(), out.len());
    let (a, c, s, o) = (arities.pointer(), cells.pointer(), slice.pointer(), out.pointer());
    let number = unsafe {
        match call.question {
            Question::Generate(_) => (library.generate)(n, a, al, c, cl, s, sl, o, ol),
            Question::Contained(_) => (library.contained)(n, a, al, c, cl, s, sl, o, ol),
            Question::Separate(v, w) => (library.separate)(n, a, al, c, cl, v, w, o, ol),
            Question::Decompose => (library.decompose)(n, a, al, c, cl, o, ol),
        }
    };
    let untouched = arities.is_intact() && cells.is_intact() && slice.is_intact();
    let answer = Answer { number, lent: out.content() };
    (answer, untouched && out.is_intact_around())
}

/// Quotient's answer, and whether all else was left alone.
pub fn ask_quotient(f: WithSlice, a: &Algebra, given: &[u8], lent: &[u8], rng: &mut Rng) -> (Answer, bool) {
    let (mut arities, mut cells) = (Guarded::new(&a.arities, rng), Guarded::new(&a.cells, rng));
    let (mut map, mut out) = (Guarded::new(given, rng), Guarded::new(lent, rng));
    let (al, cl, ml, ol) = (arities.len(), cells.len(), map.len(), out.len());
    let (ar, ce, mp, tables) = (arities.pointer(), cells.pointer(), map.pointer(), out.pointer());
    let number = unsafe { f(a.n, ar, al, ce, cl, mp, ml, tables, ol) };
    let untouched = arities.is_intact() && cells.is_intact() && map.is_intact() && out.is_intact_around();
    (Answer { number, lent: out.content() }, untouched)
}

/// Certify's number, and whether nothing was written.
pub fn ask_certify(f: WithMaps, a: &Algebra, list: &[u8], rng: &mut Rng) -> (u32, bool) {
    let (mut arities, mut cells) = (Guarded::new(&a.arities, rng), Guarded::new(&a.cells, rng));
    let mut maps = Guarded::new(list, rng);
    let (al, cl, ml) = (arities.len(), cells.len(), maps.len());
    let number = unsafe { f(a.n, arities.pointer(), al, cells.pointer(), cl, maps.pointer(), ml) };
    (number, arities.is_intact() && cells.is_intact() && maps.is_intact())
}

pub fn expected(reference: &mut Reference<Plain>, call: &Call) -> Answer {
    let (n, arities, cells, lent) = (call.n, &call.arities, &call.cells, &call.lent);
    match &call.question {
        Question::Generate(pairs) => reference.generate(n, arities, cells, pairs, lent),
        Question::Contained(map) => reference.contained(n, arities, cells, map, lent),
        Question::Separate(v, w) => reference.separate(n, arities, cells, *v, *w, lent),
        Question::Decompose => reference.decompose(n, arities, cells, lent),
    }
}

pub struct Comparison<'a> {
    pub library: Library,
    pub reference: Reference<Plain>,
    pub suite: &'a mut Suite,
    /// What Decompose answered: factors, 9, 11.
    answered: u32,
    short: u32,
    irreducible: u32,
}

impl<'a> Comparison<'a> {
    pub fn new(library: Library, suite: &'a mut Suite) -> Comparison<'a> {
        let reference = Reference::default();
        Comparison { library, reference, suite, answered: 0, short: 0, irreducible: 0 }
    }

    pub fn call(&mut self, call: &Call) -> Answer {
        let wanted = expected(&mut self.reference, call);
        let (answer, untouched) = ask(&self.library, call, &mut self.suite.rng);
        self.suite.check(answer == wanted && untouched, || {
            format!(
                "  {call:?}\n  found    {answer:?}\n  expected {wanted:?}\n  all else untouched: {untouched}"
            )
        });
        answer
    }

    pub fn of(&mut self, algebra: &Algebra, question: Question, lent: usize) -> Answer {
        let lent = self.suite.rng.bytes(lent);
        let (n, arities, cells) = (algebra.n, algebra.arities.clone(), algebra.cells.clone());
        self.call(&Call { n, arities, cells, question, lent })
    }

    /// A length to lend where `wanted` is enough: mostly exact or longer.
    fn length(&mut self, wanted: usize) -> usize {
        match self.suite.rng.below(4) {
            0 => wanted + self.suite.rng.below(70),
            1 if wanted > 0 && self.suite.rng.once_in(3) => self.suite.rng.below(wanted),
            _ => wanted,
        }
    }

    pub fn generate(&mut self, algebra: &Algebra) {
        let n = algebra.n;
        let count = match self.suite.rng.below(8) {
            0 => 0,
            1..=4 => 1,
            5 | 6 => 2,
            _ => self.suite.rng.below(2 * n + 2),
        };
        let pairs = (0..2 * count).map(|_| self.suite.rng.below(n) as u8).collect();
        let length = self.length(n);
        self.of(algebra, Question::Generate(pairs), length);
    }

    pub fn contained(&mut self, algebra: &Algebra) {
        let n = algebra.n;
        let most = *self.suite.rng.pick(&[1, 2, 3, n.div_ceil(2), n, n]);
        let map = self.suite.rng.map(n, most);
        let length = self.length(n);
        self.of(algebra, Question::Contained(map), length);
    }

    fn separate(&mut self, algebra: &Algebra) {
        let n = algebra.n;
        let (v, w) = (self.suite.rng.below(n), self.suite.rng.below(n));
        let length = self.length(n);
        self.of(algebra, Question::Separate(v, w), length);
    }

    /// A length to lend to Decompose: mostly what the factors take or a byte
    /// more or fewer, nothing, or what any list takes.
    fn factor_length(&mut self, algebra: &Algebra) -> usize {
        let Algebra { n, arities, cells } = algebra;
        let exact = self.reference.factor_count(*n, arities, cells) * n;
        let most = (n - 1) * n;
        let rng = &mut self.suite.rng;
        match rng.below(8) {
            0 => 0,
            1 => exact.saturating_sub(1),
            2 => exact + 1,
            3 => most,
            4 => most + rng.below(70),
            5 => rng.below(most + 1),
            _ => exact,
        }
    }

    pub fn decompose(&mut self, algebra: &Algebra) {
        let length = self.factor_length(algebra);
        let answer = self.of(algebra, Question::Decompose, length);
        match answer.number & 255 {
            0 => self.answered += 1,
            9 => self.short += 1,
            11 => self.irreducible += 1,
            _ => {}
        }
    }

    /// Decompose must have met both kinds of algebras, and too little space.
    fn check_kinds(&mut self) {
        let (answered, short, irreducible) = (self.answered, self.short, self.irreducible);
        let most = answered.max(short).max(irreducible);
        self.suite.check(answered.min(short).min(irreducible) * 10 >= most, || {
            format!("  too few of a kind: {answered} lists, {short} without space, {irreducible} irreducible")
        });
    }

    /// A call about a random small algebra with nothing bad in it; Decompose
    /// may lack space.
    fn good_call(&mut self, limit: usize) -> Call {
        let algebra = algebras::any(limit, 300, &mut self.suite.rng).algebra;
        let n = algebra.n;
        let rng = &mut self.suite.rng;
        let more = if rng.once_in(2) { 0 } else { rng.below(20) };
        let (question, length) = match rng.below(4) {
            0 => {
                let count = rng.below(4);
                (Question::Generate((0..2 * count).map(|_| rng.below(n) as u8).collect()), n + more)
            }
            1 => {
                let most = rng.within(1, n);
                (Question::Contained(rng.map(n, most)), n + more)
            }
            2 => (Question::Separate(rng.below(n), rng.below(n)), n + more),
            _ => (Question::Decompose, self.factor_length(&algebra)),
        };
        let lent = self.suite.rng.bytes(length);
        Call { n, arities: algebra.arities, cells: algebra.cells, question, lent }
    }

    fn each(&mut self, algebra: &Algebra, times: usize) {
        for _ in 0..times {
            self.generate(algebra);
            self.contained(algebra);
            self.separate(algebra);
        }
        self.decompose(algebra);
    }
}

/// U, C and the others of document 01's examples.
fn document_examples(library: Library, suite: &mut Suite) {
    let unary = |cells: &[u8]| Algebra { n: 4, arities: vec![1], cells: cells.to_vec() };
    let (u, c) = (unary(&[1, 0, 3, 2]), unary(&[1, 2, 3, 0]));
    let minimum = algebras::build(3, &[(2, &|a| a[0].min(a[1]))]);
    let rows: Vec<(&str, Algebra, Question, u32, Vec<u8>)> = vec![
        ("1", u.clone(), Question::Generate(vec![0, 2]), 512, vec![0, 1, 0, 1]),
        ("2", u.clone(), Question::Generate(vec![2, 3]), 256, vec![0, 1, 2, 2]),
        ("3", u.clone(), Question::Generate(vec![]), 0, vec![0, 1, 2, 3]),
        ("4", u.clone(), Question::Contained(vec![0, 0, 0, 3]), 0, vec![0, 0, 2, 3]),
        ("5", u.clone(), Question::Separate(0, 1), 0, vec![0, 1, 0, 1]),
        ("the text", u.clone(), Question::Separate(0, 2), 0, vec![0, 0, 2, 2]),
        ("6", u.clone(), Question::Decompose, 512, vec![0, 1, 0, 1, 0, 0, 2, 2]),
        ("7", c.clone(), Question::Decompose, 11 + 16_777_216 * 2, vec![]),
        ("8", algebras::bare(3), Question::Decompose, 512, vec![0, 1, 0, 0, 0, 2]),
        ("9", algebras::bare(2), Question::Decompose, 11 + 16_777_216, vec![]),
        ("10", algebras::bare(1), Question::Decompose, 11, vec![]),
        ("11", minimum, Question::Decompose, 512, vec![0, 1, 1, 0, 0, 2]),
        ("the first shortcut", c.clone(), Question::Generate(vec![0, 1]), 768, vec![0, 0, 0, 0]),
        ("the third shortcut", c, Question::Separate(0, 1), 0, vec![0, 1, 0, 1]),
    ];
    for (name, algebra, question, number, written) in rows {
        let lent = suite.rng.bytes(17);
        let mut after = lent.clone();
        after[..written.len()].copy_from_slice(&written);
        let call = Call { n: algebra.n, arities: algebra.arities, cells: algebra.cells, question, lent };
        let found = ask(&library, &call, &mut suite.rng);
        suite.same(name, found, (Answer { number, lent: after }, true));
    }
}

/// Document 01's small inputs, and the edges it names, with their numbers.
fn document_refusals(library: Library, suite: &mut Suite) {
    let none = Vec::new;
    let ternary = |n: usize| vec![0u8; n * n * n];
    let generate = |pairs: &[u8]| Question::Generate(pairs.to_vec());
    let rows: Vec<(&str, usize, Vec<u8>, Vec<u8>, Question, usize, u32)> = vec![
        ("1: n = 65", 65, none(), none(), generate(&[]), 65, 1),
        ("1: n = 0", 0, none(), none(), generate(&[]), 0, 1),
        ("n = 64", 64, none(), none(), generate(&[]), 64, 0),
        ("1: n = 260", 260, none(), none(), generate(&[]), 260, 1),
        ("1: n = 2^32 + 4", (1 << 32) + 4, none(), none(), generate(&[]), 64, 1),
        ("1: the largest n", usize::MAX, none(), none(), Question::Decompose, 64, 1),
        ("2: 17 nullary ones", 2, vec![0; 17], vec![0; 17], generate(&[]), 2, 2),
        ("16 nullary ones", 2, vec![0; 16], vec![0; 16], generate(&[]), 2, 0),
        ("2: 17, one of arity 4", 2, [vec![0; 16], vec![4]].concat(), none(), generate(&[]), 2, 2),
        ("3: arity 4", 2, vec![4], vec![0; 16], generate(&[]), 2, 3),
        ("3: arity 255", 1, vec![255], vec![0], generate(&[]), 2, 3),
        ("4: n = 64, one ternary", 64, vec![3], ternary(64), generate(&[]), 64, 4),
        ("4: the same, cells missing", 64, vec![3], none(), generate(&[]), 64, 4),
        ("32,768 cells", 32, vec![3], ternary(32), generate(&[0, 1]), 32, 256),
        ("4: one nullary more", 32, vec![3, 0], [ternary(32), vec![0]].concat(), generate(&[]), 32, 4),
        ("5: n = 2, unary, cells 0", 2, vec![1], vec![0], generate(&[]), 2, 5),
        ("5: one too many, and bad", 2, vec![1], vec![0, 1, 9], generate(&[]), 2, 5),
        ("5: cells without operations", 2, none(), vec![0], generate(&[]), 2, 5),
        ("6: n = 2, unary, cells 0 2", 2, vec![1], vec![0, 2], generate(&[]), 2, 6),
        ("6: a nullary cell", 2, vec![0], vec![2], generate(&[]), 2, 6),
        ("7: n = 2, pair 0 2", 2, none(), none(), generate(&[0, 2]), 2, 7),
        ("7: odd", 2, none(), none(), generate(&[0, 1, 1]), 2, 7),
        ("7 before 9", 4, none(), none(), generate(&[9, 0]), 3, 7),
        ("7: v", 4, none(), none(), Question::Separate(4, 0), 4, 7),
        ("7: w = 256", 4, none(), none(), Question::Separate(0, 256), 4, 7),
        ("7: v = 2^32 + 1", 4, none(), none(), Question::Separate((1 << 32) + 1, 0), 4, 7),
        ("7 before 10", 4, none(), none(), Question::Separate(5, 5), 4, 7),
        ("8: n = 3, 0 2 2", 3, none(), none(), Question::Contained(vec![0, 2, 2]), 3, 8),
        ("8: too short", 3, none(), none(), Question::Contained(vec![0, 1]), 3, 8),
        ("8: too long", 3, none(), none(), Question::Contained(vec![0, 1, 2, 3]), 3, 8),
        ("8: a byte not below n", 3, none(), none(), Question::Contained(vec![0, 1, 3]), 3, 8),
        ("8 before 9", 3, none(), none(), Question::Contained(vec![1, 1, 1]), 0, 8),
        ("8: names no first member", 4, none(), none(), Question::Contained(vec![0, 0, 2, 1]), 4, 8),
        ("9: n = 4 into 3 bytes", 4, none(), none(), generate(&[]), 3, 9),
        ("9: contained", 4, none(), none(), Question::Contained(vec![0, 0, 0, 0]), 3, 9),
        ("9 before 10", 4, none(), none(), Question::Separate(1, 1), 3, 9),
        ("9: decompose", 3, none(), none(), Question::Decompose, 5, 9),
        ("10: 1 1", 4, none(), none(), Question::Separate(1, 1), 4, 10),
        ("10: n = 1", 1, none(), none(), Question::Separate(0, 0), 1, 10),
        ("11: n = 2", 2, none(), none(), Question::Decompose, 2, 11 + 16_777_216),
        ("11: n = 1, nothing lent", 1, none(), none(), Question::Decompose, 0, 11),
        ("11: n = 2, nothing lent", 2, none(), none(), Question::Decompose, 0, 11 + 16_777_216),
    ];
    for (name, n, arities, cells, question, length, number) in rows {
        let lent = suite.rng.bytes(length);
        let call = Call { n, arities, cells, question, lent };
        let (answer, untouched) = ask(&library, &call, &mut suite.rng);
        let unwritten = number & 255 == 0 || answer.lent == call.lent;
        suite.check(answer.number == number && untouched && unwritten, || {
            format!("  {name}: {answer:?}, not {number}; untouched {untouched}, unwritten {unwritten}")
        });
    }
}

/// Ways to make a good call bad; several may come together.
fn damage(call: &mut Call, rng: &mut Rng) {
    match rng.below(17) {
        0 => call.n = *rng.pick(&[0, 65, 66, 127, 128, 255, 256, 260, 1 << 16, 1 << 32, usize::MAX]),
        1 => call.n = call.n.wrapping_add(1 << rng.within(8, 63)),
        2 => call.arities = (0..rng.within(17, 40)).map(|_| rng.below(4) as u8).collect(),
        3 => call.arities = rng.bytes(rng.clone().below(20)),
        4 if !call.arities.is_empty() => {
            let i = rng.below(call.arities.len());
            call.arities[i] = rng.byte();
        }
        5 => call.arities.push(rng.below(4) as u8),
        13 => {
            call.n = rng.within(32, 64);
            call.arities = vec![*rng.pick(&[2, 3]); rng.clone().within(1, 16)];
        }
        6 => {
            call.cells.pop();
        }
        7 => call.cells.push(rng.below(2) as u8),
        8 if !call.cells.is_empty() => {
            let i = rng.below(call.cells.len());
            call.cells[i] = *rng.pick(&[call.n as u8, 64, 128, 255, rng.clone().byte()]);
        }
        9 => call.cells.clear(),
        10 => {
            let length = rng.below(call.lent.len() + 1);
            call.lent.truncate(length);
        }
        11 => call.lent.clear(),
        12 => {
            call.lent.pop();
        }
        _ => match &mut call.question {
            Question::Generate(bytes) | Question::Contained(bytes) => match rng.below(6) {
                0 => bytes.push(0),
                1 => {
                    bytes.pop();
                }
                2 => bytes.extend((0..rng.below(4) * 2).map(|_| 0)),
                3 => *bytes = rng.bytes(rng.clone().below(70)),
                _ if !bytes.is_empty() => {
                    let i = rng.below(bytes.len());
                    bytes[i] =
                        if rng.once_in(2) { rng.byte() } else { rng.below(call.n.clamp(1, 255)) as u8 };
                }
                _ => {}
            },
            Question::Separate(v, w) => match rng.below(4) {
                0 => *v = *w,
                1 => *v = call.n,
                2 => *w = w.wrapping_add(1 << rng.within(6, 63)),
                _ => *v = rng.next() as usize,
            },
            Question::Decompose => {}
        },
    }
}

/// Decompose of an accepted algebra with so many bytes lent.
pub fn ask_decompose(library: &Library, algebra: &Algebra, length: usize, rng: &mut Rng) -> (Answer, bool) {
    let lent = rng.bytes(length);
    let Algebra { n, arities, cells } = algebra.clone();
    ask(library, &Call { n, arities, cells, question: Question::Decompose, lent }, rng)
}

/// The number of factors, which a call with room for any list says; 0 for 11.
pub fn count_of(library: &Library, algebra: &Algebra, rng: &mut Rng) -> usize {
    let number = ask_decompose(library, algebra, (algebra.n - 1) * algebra.n, rng).0.number;
    number.to_le_bytes()[1] as usize
}

/// What demand 3 says of Decompose, checked without the reference's own list.
/// Nothing is lent that the factors do not take.
fn demand_three(library: Library, suite: &mut Suite, one: &Named) {
    let a = &one.algebra;
    let (n, name) = (a.n, &one.name);
    let engine = Plain::new(a);
    let known = count_of(&library, a, &mut suite.rng);
    let (answer, _) = ask_decompose(&library, a, known * n, &mut suite.rng);
    let [reason, count, x, y] = answer.number.to_le_bytes();
    suite.same("the count where just its space is lent", count as usize, known);
    if reason == 11 {
        let pair = if n == 1 { Some((0, 0)) } else { engine.common_pair() };
        suite.check(pair == Some((x as usize, y as usize)), || {
            format!("  {name} {a:?}\n  11 with {x} {y}, but the first common pair is {pair:?}")
        });
        return;
    }
    let list: Vec<&[u8]> = answer.lent.chunks(n).collect();
    let meet = |list: &[&[u8]]| list.iter().fold(vec![0; n], |m, f| engine.meet(&m, f));
    let mut good = reason == 0 && count > 0 && meet(&list) == identity(n);
    let without = |i: usize| [&list[..i], &list[i + 1..]].concat();
    good = good && list.iter().all(|f| is_map(n, f) && engine.respects(f));
    good = good && (0..list.len()).all(|i| meet(&without(i)) != identity(n));
    good = good && list.iter().all(|f| engine.is_maximal_for_a_pair(f));
    suite.check(good, || format!("  {name} {a:?}\n  no irredundant list of factors: {answer:?}"));
    if !good {
        return;
    }
    let certified = Reference::<Plain>::default().certify(n, &a.arities, &a.cells, &list.concat());
    suite.same("certified", certified, Ok(true));
    for factor in list {
        let (cells, b) = engine.quotient(factor);
        let quotient = Algebra { n: b, arities: a.arities.clone(), cells };
        let pair = Plain::new(&quotient).common_pair();
        let (again, _) = ask_decompose(&library, &quotient, 0, &mut suite.rng);
        let irreducible = again.number & 255 == 11;
        suite.check(irreducible && pair.is_some(), || {
            format!("  {name} {a:?}\n  factor {factor:?} has the quotient {quotient:?}\n  {again:?}, common pair {pair:?}")
        });
    }
}

/// All services on a stack little more than what they may take.
fn small_stack(library: Library, suite: &mut Suite) {
    // The rest is for the thread itself and its own frames.
    const STACK: usize = (256 + 24) * 1024;
    let mut list = algebras::workloads(&mut suite.rng);
    list.extend(algebras::hard(64, &mut suite.rng));
    for one in list {
        let algebra = one.algebra.clone();
        let ask_all = move || {
            let (n, a, c) = (algebra.n, &algebra.arities, &algebra.cells);
            let (a, al, c, cl) = (a.as_ptr(), a.len(), c.as_ptr(), c.len());
            let mut out = vec![0u8; n * n];
            let (o, ol) = (out.as_mut_ptr(), out.len());
            let pairs = [0u8, 1];
            let all = vec![0u8; n];
            let mut tables = vec![0u8; cl];
            unsafe {
                (library.generate)(n, a, al, c, cl, pairs.as_ptr(), 2, o, ol);
                (library.contained)(n, a, al, c, cl, all.as_ptr(), n, o, ol);
                (library.separate)(n, a, al, c, cl, n - 2, n - 1, o, ol);
                if let Some(quotient) = library.quotient {
                    quotient(n, a, al, c, cl, o, n, tables.as_mut_ptr(), cl);
                }
                let number = (library.decompose)(n, a, al, c, cl, o, ol);
                if let (Some(certify), 0) = (library.certify, number & 255) {
                    certify(n, a, al, c, cl, o, number as usize / 256 * n);
                }
                number
            }
        };
        let thread = std::thread::Builder::new().stack_size(STACK).spawn(ask_all).unwrap();
        let number = thread.join().unwrap();
        suite.check(number & 255 == 0 || number & 255 == 11, || format!("  {}: {number}", one.name));
    }
}

/// Decompose of any accepted algebra takes less than a second.
fn within_a_second(library: Library, suite: &mut Suite) {
    let mut list = algebras::workloads(&mut suite.rng);
    list.extend(algebras::hard(64, &mut suite.rng));
    for _ in 0..60 {
        list.push(algebras::any(64, 32_768, &mut suite.rng));
    }
    for one in list {
        let n = one.algebra.n;
        let begin = Instant::now();
        ask_decompose(&library, &one.algebra, n * n, &mut suite.rng);
        let taken = begin.elapsed();
        suite.check(taken.as_secs_f64() < 1.0, || format!("  {}: {taken:?}, {:?}", one.name, one.algebra));
    }
}

/// All suites of one library. `share` divides the number of random cases.
pub fn suites(run: &mut Run, library: Library, share: usize) {
    let name = |part: &str| format!("{}: {part}", library.name);
    run.suite(&name("document 01's examples"), |s| document_examples(library, s));
    run.suite(&name("document 01's refusals and edges"), |s| document_refusals(library, s));
    run.suite(&name("structured algebras, n to 30"), |s| {
        let list = algebras::structured(30, &mut s.rng);
        let mut comparison = Comparison::new(library, s);
        for one in list {
            comparison.each(&one.algebra, 6);
        }
    });
    run.suite(&name("random algebras, n to 6"), |s| {
        let mut comparison = Comparison::new(library, s);
        for _ in 0..20_000 / share {
            let one = algebras::any(6, 300, &mut comparison.suite.rng);
            comparison.each(&one.algebra, 4);
            if comparison.suite.is_over() {
                break;
            }
        }
        comparison.check_kinds();
    });
    run.suite(&name("random algebras, n to 20"), |s| {
        let mut comparison = Comparison::new(library, s);
        for _ in 0..2400 / share {
            let one = algebras::any(20, 8000, &mut comparison.suite.rng);
            comparison.each(&one.algebra, 6);
            if comparison.suite.is_over() {
                break;
            }
        }
        comparison.check_kinds();
    });
    run.suite(&name("random algebras, n to 64"), |s| {
        let mut comparison = Comparison::new(library, s);
        for _ in 0..300 / share {
            let one = algebras::any(64, 9000, &mut comparison.suite.rng);
            comparison.each(&one.algebra, 8);
            if comparison.suite.is_over() {
                break;
            }
        }
        comparison.check_kinds();
    });
    run.suite(&name("full-size algebras"), |s| {
        let list = algebras::workloads(&mut s.rng);
        let mut comparison = Comparison::new(library, s);
        for one in list {
            comparison.each(&one.algebra, 10);
        }
    });
    run.suite(&name("every pair and every short map, n to 4"), |s| {
        let mut comparison = Comparison::new(library, s);
        for round in 0..300 {
            let one = algebras::any(4, 100, &mut comparison.suite.rng);
            let n = one.algebra.n;
            for v in 0..n + 2 {
                for w in 0..n + 2 {
                    comparison.of(&one.algebra, Question::Separate(v, w), n);
                    comparison.of(&one.algebra, Question::Generate(vec![v as u8, w as u8]), n);
                }
            }
            // Every list of bytes up to n + 1 long, most of them no maps.
            for length in (0..=n + 1).take(if round < 60 { 6 } else { 3 }) {
                for code in 0..(n + 1).pow(length as u32) {
                    let map = (0..length).map(|i| (code / (n + 1).pow(i as u32) % (n + 1)) as u8);
                    comparison.of(&one.algebra, Question::Contained(map.collect()), n);
                }
            }
        }
    });
    run.suite(&name("every length of the output"), |s| {
        let mut comparison = Comparison::new(library, s);
        for _ in 0..200 {
            let one = algebras::any(7, 300, &mut comparison.suite.rng);
            let n = one.algebra.n;
            for length in 0..n * n + 3 {
                let map = comparison.suite.rng.map(n, 2);
                comparison.of(&one.algebra, Question::Generate(vec![0, n as u8 - 1]), length);
                comparison.of(&one.algebra, Question::Contained(map), length);
                comparison.of(&one.algebra, Question::Separate(0, n - 1), length);
                comparison.of(&one.algebra, Question::Decompose, length);
            }
        }
    });
    run.suite(&name("bad input"), |s| {
        let mut comparison = Comparison::new(library, s);
        let mut refused = [0u32; 256];
        for _ in 0..300_000 / share {
            let mut call = comparison.good_call(5);
            let rng = &mut comparison.suite.rng;
            for _ in 0..rng.within(1, 3) {
                damage(&mut call, rng);
            }
            let answer = comparison.call(&call);
            refused[answer.number as usize & 255] += 1;
            if comparison.suite.is_over() {
                break;
            }
        }
        for number in 0..=11 {
            s.check(refused[number] > 0, || format!("  no case with reason {number}"));
        }
    });
    run.suite(&name("long pair lists"), |s| {
        let mut comparison = Comparison::new(library, s);
        for length in [2000, 9999, 10_000, 65_536, 65_537, 131_072] {
            let one = algebras::lifted(40, 6, &[2, 1], &mut comparison.suite.rng);
            let pairs: Vec<u8> = (0..length).map(|i| (i % 7) as u8).collect();
            comparison.of(&one, Question::Generate(pairs.clone()), 40);
            let mut wild = pairs;
            *wild.last_mut().unwrap() = 40;
            comparison.of(&one, Question::Generate(wild), 40);
            comparison.of(&one, Question::Generate(vec![3; length]), 40);
        }
    });
    run.suite(&name("demand 3"), |s| {
        let mut list = algebras::structured(16, &mut s.rng);
        for _ in 0..4000 / share {
            list.push(algebras::any(8, 600, &mut s.rng));
        }
        for _ in 0..100 / share {
            list.push(algebras::any(40, 5000, &mut s.rng));
        }
        for one in list {
            assert_eq!(reason(one.algebra.n, &one.algebra.arities, &one.algebra.cells), 0);
            demand_three(library, s, &one);
            if s.is_over() {
                break;
            }
        }
    });
    run.suite(&name("demand 3, full-size algebras"), |s| {
        for one in algebras::workloads(&mut s.rng).into_iter().step_by(share) {
            demand_three(library, s, &one);
        }
    });
    run.suite(&name("a stack of 256 KiB"), |s| small_stack(library, s));
    run.suite(&name("a second for Decompose"), |s| within_a_second(library, s));
    run.suite(&name("merges are n minus the blocks"), |s| {
        for _ in 0..3000 {
            let Algebra { n, arities, cells } = algebras::any(12, 300, &mut s.rng).algebra;
            let question = Question::Generate(vec![s.rng.below(n) as u8, s.rng.below(n) as u8]);
            let call = Call { n, arities, cells, question, lent: vec![0; n] };
            let (answer, _) = ask(&library, &call, &mut s.rng);
            s.same("merges", answer.number, 256 * (n - blocks(&answer.lent)) as u32);
        }
    });
}
