//! The services: refusals by the table, lowest number first; the number that
//! comes back; the lent bytes afterwards.

use std::rc::Rc;

use super::algebra::{reason, Algebra};
use super::map::*;
use super::Engine;

/// The packed number and the lent bytes after a call.
#[derive(Clone, Debug, PartialEq, Eq)]
pub struct Answer {
    pub number: u32,
    pub lent: Vec<u8>,
}

impl Answer {
    fn refused(number: u32, lent: &[u8]) -> Answer {
        Answer { number, lent: lent.to_vec() }
    }

    /// The written bytes, then the rest of the lent ones as they were.
    fn written(count: usize, new: &[u8], lent: &[u8]) -> Answer {
        let mut after = new.to_vec();
        after.extend_from_slice(&lent[new.len()..]);
        Answer { number: 256 * count as u32, lent: after }
    }
}

/// What Decompose finds in an accepted algebra.
enum Found {
    Factors(Vec<Map>),
    /// The first pair that all congruences but the identity hold; 0 0 for n = 1.
    Irreducible(usize, usize),
}

/// The services over one engine. It keeps the engine of the last algebra, and
/// what Decompose finds in it once that is asked.
pub struct Reference<E> {
    last: Option<(Algebra, Rc<E>)>,
    found: Option<Rc<Found>>,
}

impl<E: Engine> Default for Reference<E> {
    fn default() -> Self {
        Reference { last: None, found: None }
    }
}

impl<E: Engine> Reference<E> {
    /// The engine of an accepted algebra.
    pub fn engine(&mut self, n: usize, arities: &[u8], cells: &[u8]) -> Rc<E> {
        if let Some((a, engine)) = &self.last {
            if a.n == n && a.arities == arities && a.cells == cells {
                return engine.clone();
            }
        }
        let algebra = Algebra { n, arities: arities.to_vec(), cells: cells.to_vec() };
        let engine = Rc::new(E::new(&algebra));
        self.last = Some((algebra, engine.clone()));
        self.found = None;
        engine
    }

    fn find(&mut self, n: usize, arities: &[u8], cells: &[u8]) -> Rc<Found> {
        let engine = self.engine(n, arities, cells);
        self.found.get_or_insert_with(|| Rc::new(factors_or_pair(&*engine, n))).clone()
    }

    pub fn generate(&mut self, n: usize, arities: &[u8], cells: &[u8], pairs: &[u8], lent: &[u8]) -> Answer {
        let refusal = reason(n, arities, cells);
        if refusal != 0 {
            return Answer::refused(refusal, lent);
        }
        if pairs.len() % 2 == 1 || pairs.iter().any(|&x| x as usize >= n) {
            return Answer::refused(7, lent);
        }
        if lent.len() < n {
            return Answer::refused(9, lent);
        }
        let list: Vec<(usize, usize)> = pairs.chunks(2).map(|p| (p[0] as usize, p[1] as usize)).collect();
        let map = self.engine(n, arities, cells).least(&list);
        Answer::written(n - blocks(&map), &map, lent)
    }

    pub fn contained(&mut self, n: usize, arities: &[u8], cells: &[u8], map: &[u8], lent: &[u8]) -> Answer {
        let refusal = reason(n, arities, cells);
        if refusal != 0 {
            return Answer::refused(refusal, lent);
        }
        if !is_map(n, map) {
            return Answer::refused(8, lent);
        }
        if lent.len() < n {
            return Answer::refused(9, lent);
        }
        let result = self.engine(n, arities, cells).greatest_inside(map);
        Answer::written(0, &result, lent)
    }

    pub fn separate(
        &mut self,
        n: usize,
        arities: &[u8],
        cells: &[u8],
        v: usize,
        w: usize,
        lent: &[u8],
    ) -> Answer {
        let refusal = reason(n, arities, cells);
        if refusal != 0 {
            return Answer::refused(refusal, lent);
        }
        if v >= n || w >= n {
            return Answer::refused(7, lent);
        }
        if lent.len() < n {
            return Answer::refused(9, lent);
        }
        if v == w {
            return Answer::refused(10, lent);
        }
        let result = self.engine(n, arities, cells).separate(v, w);
        Answer::written(0, &result, lent)
    }

    pub fn decompose(&mut self, n: usize, arities: &[u8], cells: &[u8], lent: &[u8]) -> Answer {
        let refusal = reason(n, arities, cells);
        if refusal != 0 {
            return Answer::refused(refusal, lent);
        }
        match &*self.find(n, arities, cells) {
            Found::Irreducible(x, y) => {
                Answer::refused(11 + 65_536 * *x as u32 + 16_777_216 * *y as u32, lent)
            }
            Found::Factors(list) if lent.len() < list.len() * n => Answer::refused(9, lent),
            Found::Factors(list) => Answer::written(list.len(), &list.concat(), lent),
        }
    }

    /// How many factors an accepted algebra has: 0 if it is irreducible.
    pub fn factor_count(&mut self, n: usize, arities: &[u8], cells: &[u8]) -> usize {
        match &*self.find(n, arities, cells) {
            Found::Irreducible(..) => 0,
            Found::Factors(list) => list.len(),
        }
    }

    pub fn quotient(&mut self, n: usize, arities: &[u8], cells: &[u8], map: &[u8], lent: &[u8]) -> Answer {
        let refusal = reason(n, arities, cells);
        if refusal != 0 {
            return Answer::refused(refusal, lent);
        }
        if !is_map(n, map) {
            return Answer::refused(8, lent);
        }
        let wanted: usize = arities.iter().map(|&s| blocks(map).pow(s as u32)).sum();
        if lent.len() < wanted {
            return Answer::refused(9, lent);
        }
        let engine = self.engine(n, arities, cells);
        if !engine.respects(map) {
            return Answer::refused(12, lent);
        }
        let (tables, b) = engine.quotient(map);
        assert_eq!(tables.len(), wanted);
        Answer::written(b, &tables, lent)
    }

    /// Ok(yes or no), or the refusal.
    pub fn certify(&mut self, n: usize, arities: &[u8], cells: &[u8], maps: &[u8]) -> Result<bool, u32> {
        let refusal = reason(n, arities, cells);
        if refusal != 0 {
            return Err(refusal);
        }
        if maps.len() % n != 0 || maps.len() / n > 63 || !maps.chunks(n).all(|m| is_map(n, m)) {
            return Err(8);
        }
        let list: Vec<Map> = maps.chunks(n).map(|m| m.to_vec()).collect();
        let engine = self.engine(n, arities, cells);
        if !list.iter().all(|m| engine.respects(m)) || !meets_in_identity(&*engine, n, &list) {
            return Ok(false);
        }
        for i in 0..list.len() {
            let mut rest = list.clone();
            rest.remove(i);
            if meets_in_identity(&*engine, n, &rest) {
                return Ok(false);
            }
        }
        Ok(list.iter().all(|m| engine.is_maximal_for_a_pair(m)))
    }

    /// The least congruence that holds an old map and a pair.
    pub fn least_above(
        &mut self,
        n: usize,
        arities: &[u8],
        cells: &[u8],
        old: &[u8],
        x: usize,
        y: usize,
    ) -> Map {
        let mut list: Vec<(usize, usize)> =
            old.iter().enumerate().map(|(e, &first)| (e, first as usize)).collect();
        list.push((x, y));
        self.engine(n, arities, cells).least(&list)
    }
}

fn meets_in_identity<E: Engine>(engine: &E, n: usize, list: &[Map]) -> bool {
    let meet = list.iter().fold(all(n), |meet, m| engine.meet(&meet, m));
    meet == identity(n)
}

/// Decompose's list after the dropping, or the pair of an irreducible algebra.
fn factors_or_pair<E: Engine>(engine: &E, n: usize) -> Found {
    let mut list: Vec<Map> = Vec::new();
    let mut meet = all(n);
    while meet != identity(n) {
        let (v, w) = first_held(&meet).unwrap();
        list.push(engine.separate(v, w));
        meet = engine.meet(&meet, list.last().unwrap());
    }
    let mut i = 0;
    while i < list.len() {
        let mut rest = list.clone();
        rest.remove(i);
        if meets_in_identity(engine, n, &rest) {
            list = rest;
        } else {
            i += 1;
        }
    }
    if list.is_empty() || list == [identity(n)] {
        let (x, y) = if n == 1 { (0, 0) } else { engine.common_pair().unwrap() };
        return Found::Irreducible(x, y);
    }
    Found::Factors(list)
}

/// Meet and Join need no algebra; n and two maps.
fn two_maps(n: usize, a: &[u8], b: &[u8], lent: &[u8]) -> u32 {
    if n == 0 || n > 64 {
        1
    } else if !is_map(n, a) || !is_map(n, b) {
        8
    } else if lent.len() < n {
        9
    } else {
        0
    }
}

impl<E: Engine> Reference<E> {
    pub fn meet(&mut self, n: usize, a: &[u8], b: &[u8], lent: &[u8]) -> Answer {
        match two_maps(n, a, b, lent) {
            0 => Answer::written(0, &self.engine(n, &[], &[]).meet(a, b), lent),
            refusal => Answer::refused(refusal, lent),
        }
    }

    pub fn join(&mut self, n: usize, a: &[u8], b: &[u8], lent: &[u8]) -> Answer {
        match two_maps(n, a, b, lent) {
            0 => Answer::written(0, &self.engine(n, &[], &[]).join(a, b), lent),
            refusal => Answer::refused(refusal, lent),
        }
    }
}

/// The part that Prefer hands back.
pub fn prefer<'a>(n: usize, a: &'a [u8], b: &'a [u8]) -> &'a [u8] {
    if n == 0 || n > 64 || !is_map(n, a) || !is_map(n, b) {
        &a[..0]
    } else if a == b || is_earlier(a, b) {
        a
    } else {
        b
    }
}
