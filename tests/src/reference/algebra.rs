//! Algebras: tables, reasons 1 to 6, and the definition of a congruence.

use super::map::holds;

#[derive(Clone, Debug, PartialEq, Eq)]
pub struct Algebra {
    pub n: usize,
    pub arities: Vec<u8>,
    pub cells: Vec<u8>,
}

/// The lowest of reasons 1 to 6 that applies, or 0.
pub fn reason(n: usize, arities: &[u8], cells: &[u8]) -> u32 {
    if n == 0 || n > 64 {
        return 1;
    }
    if arities.len() > 16 {
        return 2;
    }
    if arities.iter().any(|&s| s > 3) {
        return 3;
    }
    let wanted: usize = arities.iter().map(|&s| n.pow(s as u32)).sum();
    if wanted > 32768 {
        return 4;
    }
    if cells.len() != wanted {
        return 5;
    }
    if cells.iter().any(|&c| c as usize >= n) {
        return 6;
    }
    0
}

impl Algebra {
    /// Each operation: its arity and its table.
    pub fn operations(&self) -> Vec<(usize, &[u8])> {
        let mut at = 0;
        let mut list = Vec::new();
        for &s in &self.arities {
            let size = self.n.pow(s as u32);
            list.push((s as usize, &self.cells[at..at + size]));
            at += size;
        }
        list
    }

    /// Each translation, an operation with all arguments but one fixed, as the
    /// place of x = 0 among the cells and the distance of neighbouring x.
    pub fn translations(&self) -> Vec<(usize, usize)> {
        let n = self.n;
        let mut list = Vec::new();
        let mut at = 0;
        for (s, table) in self.operations() {
            for varied in 0..s {
                let step = n.pow((s - 1 - varied) as u32);
                for place in 0..table.len() {
                    if place / step % n == 0 {
                        list.push((at + place, step));
                    }
                }
            }
            at += table.len();
        }
        list
    }

    /// The definition: replacing one argument by an equivalent element always
    /// gives an equivalent result.
    pub fn is_congruence(&self, map: &[u8]) -> bool {
        let n = self.n;
        let mut good = true;
        for (s, table) in self.operations() {
            for (place, &value) in table.iter().enumerate() {
                let arguments = arguments_of(place, s, n);
                for i in 0..s {
                    for y in 0..n {
                        if holds(map, arguments[i], y) {
                            let mut other = arguments.clone();
                            other[i] = y;
                            let result = table[place_of(&other, n)];
                            good &= holds(map, value as usize, result as usize);
                        }
                    }
                }
            }
        }
        good
    }
}

/// a1 n^(s-1) + .. + as.
pub fn place_of(arguments: &[usize], n: usize) -> usize {
    arguments.iter().fold(0, |place, &a| place * n + a)
}

pub fn arguments_of(place: usize, s: usize, n: usize) -> Vec<usize> {
    let mut rest = place;
    let mut arguments = vec![0; s];
    for i in (0..s).rev() {
        arguments[i] = rest % n;
        rest /= n;
    }
    arguments
}
