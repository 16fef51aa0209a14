//! Every notion by its definition: all maps over n are listed and searched.
//! For small n only (203 maps for n = 6).

use super::algebra::{arguments_of, place_of, Algebra};
use super::map::*;
use super::Engine;

pub struct Brute {
    algebra: Algebra,
    maps: Vec<Map>,
    congruences: Vec<Map>,
}

/// All maps over n: each element is a first member or names an earlier one.
pub fn maps(n: usize) -> Vec<Map> {
    let mut list: Vec<Map> = vec![vec![]];
    for x in 0..n {
        let mut longer = Vec::new();
        for m in &list {
            for first in 0..=x {
                if first == x || m[first] as usize == first {
                    let mut next = m.clone();
                    next.push(first as u8);
                    longer.push(next);
                }
            }
        }
        list = longer;
    }
    list
}

/// The one member that stands to every member as asked.
fn only<'a>(list: &[&'a Map], stands: impl Fn(&Map, &Map) -> bool) -> &'a Map {
    let best: Vec<&&Map> = list.iter().filter(|a| list.iter().all(|b| a == &b || stands(a, b))).collect();
    assert_eq!(best.len(), 1, "an extremal map must exist and be unique");
    best[0]
}

impl Engine for Brute {
    fn new(algebra: &Algebra) -> Brute {
        let maps = maps(algebra.n);
        assert!(maps.iter().all(|m| is_map(algebra.n, m)));
        let congruences = maps.iter().filter(|m| algebra.is_congruence(m)).cloned().collect();
        Brute { algebra: algebra.clone(), maps, congruences }
    }

    fn least(&self, pairs: &[(usize, usize)]) -> Map {
        let list: Vec<&Map> =
            self.congruences.iter().filter(|m| pairs.iter().all(|&(x, y)| holds(m, x, y))).collect();
        only(&list, |a, b| inside(a, b)).clone()
    }

    fn greatest_inside(&self, map: &[u8]) -> Map {
        let list: Vec<&Map> = self.congruences.iter().filter(|m| inside(m, map)).collect();
        only(&list, |a, b| inside(b, a)).clone()
    }

    fn separate(&self, v: usize, w: usize) -> Map {
        let list: Vec<&Map> = self.congruences.iter().filter(|m| !holds(m, v, w)).collect();
        only(&list, |a, b| is_earlier(a, b)).clone()
    }

    fn common_pair(&self) -> Option<(usize, usize)> {
        let n = self.algebra.n;
        pairs(n)
            .find(|&(x, y)| self.congruences.iter().filter(|m| **m != identity(n)).all(|m| holds(m, x, y)))
    }

    fn respects(&self, map: &[u8]) -> bool {
        self.algebra.is_congruence(map)
    }

    fn is_maximal_for_a_pair(&self, map: &[u8]) -> bool {
        pairs(self.algebra.n).any(|(x, y)| {
            !holds(map, x, y)
                && self
                    .congruences
                    .iter()
                    .filter(|m| inside(map, m) && map != m.as_slice())
                    .all(|m| holds(m, x, y))
        })
    }

    fn join(&self, a: &[u8], b: &[u8]) -> Map {
        let list: Vec<&Map> = self.maps.iter().filter(|m| inside(a, m) && inside(b, m)).collect();
        only(&list, |p, q| inside(p, q)).clone()
    }

    fn meet(&self, a: &[u8], b: &[u8]) -> Map {
        let same =
            |m: &&Map| pairs(a.len()).all(|(x, y)| holds(m, x, y) == (holds(a, x, y) && holds(b, x, y)));
        let list: Vec<&Map> = self.maps.iter().filter(same).collect();
        assert_eq!(list.len(), 1);
        list[0].clone()
    }

    /// The cell for given blocks, taken at all members of them: they must agree.
    fn quotient(&self, map: &[u8]) -> (Vec<u8>, usize) {
        let n = self.algebra.n;
        let firsts: Vec<usize> = (0..n).filter(|&x| map[x] as usize == x).collect();
        let number = |x: usize| firsts.iter().position(|&f| f == map[x] as usize).unwrap();
        let b = firsts.len();
        let mut cells = Vec::new();
        for (s, table) in self.algebra.operations() {
            let mut of_blocks: Vec<Option<usize>> = vec![None; b.pow(s as u32)];
            for (place, &value) in table.iter().enumerate() {
                let given: Vec<usize> = arguments_of(place, s, n).into_iter().map(number).collect();
                let cell = &mut of_blocks[place_of(&given, b)];
                let result = number(value as usize);
                assert!(cell.is_none_or(|old| old == result), "quotient by no congruence");
                *cell = Some(result);
            }
            cells.extend(of_blocks.into_iter().map(|c| c.unwrap() as u8));
        }
        (cells, b)
    }
}
