//! The same notions in polynomial time. Everything rests on one plain closure
//! and on the principal congruences (the least ones that hold one pair):
//! the join of congruences is a congruence, and a congruence is the join of the
//! principal ones inside it.

use std::cell::OnceCell;

use super::algebra::Algebra;
use super::map::*;
use super::Engine;

pub struct Plain {
    algebra: Algebra,
    translations: Vec<(usize, usize)>,
    /// The principal congruence of each pair, in the order of pairs.
    principal: OnceCell<Vec<Map>>,
}

/// Joins the blocks of x and y. Whether anything changed.
fn merge(map: &mut [u8], x: usize, y: usize) -> bool {
    let (a, b) = (map[x], map[y]);
    let (low, high) = (a.min(b), a.max(b));
    if low == high {
        return false;
    }
    for label in map.iter_mut() {
        if *label == high {
            *label = low;
        }
    }
    true
}

impl Plain {
    /// Merges through all translations, again and again until nothing changes.
    fn close(&self, map: &mut [u8]) {
        let cells = &self.algebra.cells;
        let mut changed = true;
        while changed && blocks(map) > 1 {
            changed = false;
            for &(base, step) in &self.translations {
                for x in 0..map.len() {
                    let first = map[x] as usize;
                    if first != x {
                        let p = cells[base + first * step] as usize;
                        let q = cells[base + x * step] as usize;
                        changed |= merge(map, p, q);
                    }
                }
            }
        }
    }

    fn principal(&self) -> &[Map] {
        self.principal.get_or_init(|| pairs(self.algebra.n).map(|pair| self.least(&[pair])).collect())
    }

    fn principals(&self) -> impl Iterator<Item = ((usize, usize), &Map)> {
        pairs(self.algebra.n).zip(self.principal())
    }
}

impl Engine for Plain {
    fn new(algebra: &Algebra) -> Plain {
        Plain { algebra: algebra.clone(), translations: algebra.translations(), principal: OnceCell::new() }
    }

    fn least(&self, pairs: &[(usize, usize)]) -> Map {
        let mut map = identity(self.algebra.n);
        for &(x, y) in pairs {
            merge(&mut map, x, y);
        }
        self.close(&mut map);
        map
    }

    /// Two elements are together if their principal congruence is inside.
    fn greatest_inside(&self, map: &[u8]) -> Map {
        let mut result = identity(self.algebra.n);
        for ((x, y), principal) in self.principals() {
            if !holds(&result, x, y) && inside(principal, map) {
                result = self.join(&result, principal);
            }
        }
        result
    }

    /// Greedy: each pair in order, if v and w can stay apart with it.
    fn separate(&self, v: usize, w: usize) -> Map {
        let mut result = identity(self.algebra.n);
        for ((x, y), principal) in self.principals() {
            if !holds(&result, x, y) && !holds(principal, v, w) {
                let larger = self.join(&result, principal);
                if !holds(&larger, v, w) {
                    result = larger;
                }
            }
        }
        result
    }

    /// What the principal congruences have in common, every other one has too.
    fn common_pair(&self) -> Option<(usize, usize)> {
        let common = self
            .principals()
            .fold(all(self.algebra.n), |common, (_, principal)| self.meet(&common, principal));
        first_held(&common)
    }

    fn respects(&self, map: &[u8]) -> bool {
        let cells = &self.algebra.cells;
        self.translations.iter().all(|&(base, step)| {
            (0..map.len()).all(|x| {
                let p = cells[base + x * step] as usize;
                let q = cells[base + map[x] as usize * step] as usize;
                holds(map, p, q)
            })
        })
    }

    /// The strictly larger congruences all hold a common new pair if the
    /// smallest of them, the map with one more pair, do.
    fn is_maximal_for_a_pair(&self, map: &[u8]) -> bool {
        let mut common = all(self.algebra.n);
        for ((x, y), principal) in self.principals() {
            if !holds(map, x, y) {
                common = self.meet(&common, &self.join(map, principal));
            }
        }
        common != map
    }

    fn join(&self, a: &[u8], b: &[u8]) -> Map {
        let mut map = a.to_vec();
        for x in 0..map.len() {
            merge(&mut map, x, b[x] as usize);
        }
        map
    }

    fn meet(&self, a: &[u8], b: &[u8]) -> Map {
        let labels: Vec<(u8, u8)> = a.iter().copied().zip(b.iter().copied()).collect();
        of_labels(&labels)
    }

    /// The cell for given blocks, taken at their first members.
    fn quotient(&self, map: &[u8]) -> (Vec<u8>, usize) {
        let n = self.algebra.n;
        let mut number = vec![0u8; n];
        let mut b = 0;
        for x in 0..n {
            if map[x] as usize == x {
                number[x] = b;
                b += 1;
            } else {
                number[x] = number[map[x] as usize];
            }
        }
        let is_first = |x: usize| map[x] as usize == x;
        let mut cells = Vec::new();
        for (s, table) in self.algebra.operations() {
            for (place, &value) in table.iter().enumerate() {
                let arguments = super::algebra::arguments_of(place, s, n);
                if arguments.into_iter().all(is_first) {
                    cells.push(number[value as usize]);
                }
            }
        }
        (cells, b as usize)
    }
}
