//! Six services on algebras that are hard for the search of congruences, against the reference: bounds
//! that end a search, pairs that are kept, and the quotients that Certify goes by are wrong here first.

use outside_tests::algebras::{self, Named};
use outside_tests::reference::algebra::Algebra;
use outside_tests::reference::map::{blocks, identity, pairs, Map};
use outside_tests::reference::Engine;
use outside_tests::report::Run;

use crate::compare::{ask_certify, ask_quotient, Comparison, Question};
use crate::ffi::Library;

impl Comparison<'_> {
    fn quotient(&mut self, a: &Algebra, map: &[u8]) {
        let Some(f) = self.library.quotient else { return };
        let wanted: usize = a.arities.iter().map(|&s| blocks(map).pow(s as u32)).sum();
        let length = wanted + self.suite.rng.below(3);
        let lent = self.suite.rng.bytes(length);
        let expected = self.reference.quotient(a.n, &a.arities, &a.cells, map, &lent);
        let found = ask_quotient(f, a, map, &lent, &mut self.suite.rng);
        self.suite.check(found == (expected.clone(), true), || {
            format!("  {a:?}\n  map {map:?}\n  found    {found:?}\n  expected {expected:?}")
        });
    }

    fn certify(&mut self, a: &Algebra, list: &[Map]) {
        let Some(f) = self.library.certify else { return };
        let maps = list.concat();
        let expected = match self.reference.certify(a.n, &a.arities, &a.cells, &maps) {
            Ok(yes) => 256 * yes as u32,
            Err(refusal) => refusal,
        };
        let found = ask_certify(f, a, &maps, &mut self.suite.rng);
        self.suite.check(found == (expected, true), || {
            format!("  {a:?}\n  maps {list:?}\n  found {found:?}, expected {expected}")
        });
    }

    /// The factors, or the identity alone; and lists near it that are none: two factors met, whose
    /// quotient has them, one left out, one too many, the identity, a congruence of a pair.
    fn certify_all(&mut self, a: &Algebra, list: &[Map]) {
        let n = a.n;
        let engine = self.reference.engine(n, &a.arities, &a.cells);
        let rng = &mut self.suite.rng;
        let (i, j) = (rng.below(list.len()), rng.below(list.len()));
        let pair = (rng.below(n), rng.below(n));
        let without = |k: usize| [&list[..k], &list[k + 1..]].concat();
        self.certify(a, list);
        self.certify(a, &without(i));
        self.certify(a, &[identity(n)]);
        self.certify(a, &[engine.least(&[pair])]);
        if i != j {
            let mut met = without(i.max(j));
            met[i.min(j)] = engine.meet(&list[i], &list[j]);
            self.certify(a, &met);
        }
        if pair.0 != pair.1 {
            self.certify(a, &[list.to_vec(), vec![engine.separate(pair.0, pair.1)]].concat());
        }
    }

    /// All six services; Separate on every pair where these are few.
    fn hard(&mut self, one: &Named, times: usize) {
        let a = &one.algebra;
        let n = a.n;
        for _ in 0..times {
            self.generate(a);
            self.contained(a);
        }
        let all: Vec<(usize, usize)> = pairs(n).collect();
        let every = (all.len() / (6 * times)).max(1);
        let start = self.suite.rng.below(every);
        for &(v, w) in all.iter().skip(start).step_by(every) {
            self.of(a, Question::Separate(v, w), n);
            let map = self.reference.engine(n, &a.arities, &a.cells).separate(v, w);
            if self.suite.rng.once_in(8) {
                self.quotient(a, &map);
            }
        }
        self.decompose(a);
        let count = self.reference.factor_count(n, &a.arities, &a.cells);
        let factors = self.reference.decompose(n, &a.arities, &a.cells, &vec![0; count * n]).lent;
        let list: Vec<Map> =
            if count == 0 { vec![identity(n)] } else { factors.chunks(n).map(|m| m.to_vec()).collect() };
        self.quotient(a, &list[self.suite.rng.clone().below(list.len())]);
        self.certify_all(a, &list);
    }
}

/// `share` divides the number of algebras.
pub fn suites(run: &mut Run, library: Library, share: usize) {
    let name = |part: &str| format!("{}: {part}", library.name);
    run.suite(&name("hard algebras, n to 16"), |s| {
        let mut list = Vec::new();
        for n in 2..=16 {
            list.extend(algebras::hard(n, &mut s.rng));
        }
        let renamed: Vec<Named> = list
            .iter()
            .map(|one| Named {
                name: format!("{}, renamed", one.name),
                algebra: algebras::renamed(&one.algebra, &mut s.rng),
            })
            .collect();
        list.extend(renamed);
        let mut comparison = Comparison::new(library, s);
        for one in list {
            comparison.hard(&one, 6 / share.min(3));
            if comparison.suite.is_over() {
                break;
            }
        }
    });
    run.suite(&name("hard algebras, n to 64"), |s| {
        let mut list = Vec::new();
        for n in [19, 23, 32, 45, 64] {
            list.extend(algebras::hard(n, &mut s.rng));
        }
        let mut comparison = Comparison::new(library, s);
        for one in list.into_iter().step_by(share) {
            comparison.hard(&one, 2);
            if comparison.suite.is_over() {
                break;
            }
        }
    });
    run.suite(&name("kept pairs, n from 3 to 64"), |s| {
        let mut list = Vec::new();
        for n in (3..=64).step_by(share) {
            for one in algebras::slow_to_decompose(n) {
                let algebra = algebras::renamed(&one.algebra, &mut s.rng);
                list.push(Named { name: format!("{}, renamed", one.name), algebra });
                list.push(one);
            }
        }
        let mut comparison = Comparison::new(library, s);
        for one in list {
            comparison.decompose(&one.algebra);
            if comparison.suite.is_over() {
                break;
            }
        }
    });
}
