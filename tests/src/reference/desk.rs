//! What the desk program writes for an input.

use super::algebra::Algebra;
use super::plain::Plain;
use super::service::{Answer, Reference};
use super::text::{algebra_text, begins_operation, bracket, lines, numbers, spaced, Item::*, Line, Reading};

const LIMIT: usize = 65_536;

/// A fault that the stand-in of the desk program has on purpose.
#[derive(Clone, Copy, Default, PartialEq)]
pub enum Fault {
    #[default]
    None,
    /// A quotient's cells are elements and not block numbers.
    Elements,
    /// A quotient has the algebra's size and not its own.
    Size,
    /// A refused quotient ends the run.
    Ends,
    /// After a quotient there may still come operations.
    Uncounted,
}

/// The whole output for a whole input.
pub fn transcript(input: &[u8]) -> Vec<u8> {
    transcript_with(Fault::None, input)
}

pub fn transcript_with(fault: Fault, input: &[u8]) -> Vec<u8> {
    let mut desk = Desk { fault, ..Desk::default() };
    if input.len() > LIMIT || input.is_empty() {
        desk.refuse(14);
        return desk.output;
    }
    for line in lines(input) {
        desk.line(&line);
        if desk.ended {
            break;
        }
    }
    desk.output
}

#[derive(Default)]
struct Desk {
    fault: Fault,
    output: Vec<u8>,
    ended: bool,
    algebra: Reading,
    requested: bool,
    reference: Reference<Plain>,
}

impl Desk {
    fn refuse(&mut self, number: u32) {
        self.output.extend_from_slice(format!("[refused {number}]\n").as_bytes());
    }

    fn end(&mut self, number: u32) {
        self.refuse(number);
        self.ended = true;
    }

    fn line(&mut self, line: &Line) {
        let done = match self.algebra.n {
            None => self.algebra.size_line(line),
            Some(n) if !self.requested && begins_operation(line) => self.algebra.operation_line(line, n),
            Some(n) => {
                self.request(line, n);
                Ok(())
            }
        };
        if let Err(refusal) = done {
            self.end(refusal);
        }
    }

    fn request(&mut self, line: &Line, n: usize) {
        self.requested = true;
        let Some(tree) = line.tree() else {
            return self.end(14);
        };
        let Some((Word(word), items)) = tree.split_first() else {
            return self.end(14);
        };
        let (arities, cells) = (self.algebra.arities.clone(), self.algebra.cells.clone());
        let lent = vec![0; n * n];
        match word.as_str() {
            "generate" => {
                let mut pairs = Vec::new();
                for item in items {
                    match item {
                        Bracket(pair) => match pair.as_slice() {
                            [Number(x), Number(y)] => pairs.extend([*x, *y]),
                            _ => return self.end(14),
                        },
                        _ => return self.end(14),
                    }
                }
                let answer = self.reference.generate(n, &arities, &cells, &pairs, &lent);
                if answer.number % 256 != 0 {
                    return self.refuse(answer.number);
                }
                let text = format!("[generated {} {}]\n", answer.number / 256, bracket(&answer.lent[..n]));
                self.output.extend_from_slice(text.as_bytes());
            }
            "contained" => {
                let Some(map) = numbers(items) else {
                    return self.end(14);
                };
                let answer = self.reference.contained(n, &arities, &cells, &map, &lent);
                self.map_or_refusal(answer, n);
            }
            "separate" => {
                let Some(&[v, w]) = numbers(items).as_deref() else {
                    return self.end(14);
                };
                let answer = self.reference.separate(n, &arities, &cells, v as usize, w as usize, &lent);
                self.map_or_refusal(answer, n);
            }
            "decompose" if items.is_empty() => {
                let answer = self.reference.decompose(n, &arities, &cells, &lent);
                self.factors_or_refusal(answer, n);
            }
            "quotient" => {
                let Some(map) = numbers(items) else {
                    return self.end(14);
                };
                let answer = self.reference.quotient(n, &arities, &cells, &map, &[0; 32768]);
                self.quotient_or_refusal(answer, &map);
            }
            _ => self.end(14),
        }
    }

    fn quotient_or_refusal(&mut self, answer: Answer, map: &[u8]) {
        self.requested = self.fault != Fault::Uncounted;
        if answer.number % 256 != 0 {
            self.refuse(answer.number);
            self.ended = self.fault == Fault::Ends;
            return;
        }
        let b = answer.number as usize / 256;
        let arities = self.algebra.arities.clone();
        let count = arities.iter().map(|&s| b.pow(s as u32)).sum();
        let quotient = Algebra { n: b, arities, cells: answer.lent[..count].to_vec() };
        let text = self.spoiled(quotient, map);
        self.output.extend_from_slice(text.as_bytes());
    }

    /// The quotient's text, with the fault if that is one of it.
    fn spoiled(&self, mut quotient: Algebra, map: &[u8]) -> String {
        if self.fault == Fault::Elements {
            let firsts: Vec<u8> = (0..map.len() as u8).filter(|&x| map[x as usize] == x).collect();
            quotient.cells.iter_mut().for_each(|cell| *cell = firsts[*cell as usize]);
        }
        let text = algebra_text(&quotient);
        if self.fault == Fault::Size {
            return text.replacen(&quotient.n.to_string(), &map.len().to_string(), 1);
        }
        text
    }

    fn map_or_refusal(&mut self, answer: Answer, n: usize) {
        if answer.number != 0 {
            return self.refuse(answer.number);
        }
        let text = format!("[map {}]\n", spaced(&answer.lent[..n]));
        self.output.extend_from_slice(text.as_bytes());
    }

    fn factors_or_refusal(&mut self, answer: Answer, n: usize) {
        let [reason, count, x, y] = answer.number.to_le_bytes();
        let text = if reason == 11 {
            format!("[refused 11 {x} {y}]\n")
        } else {
            assert_eq!(reason, 0);
            let maps = answer.lent[..count as usize * n].chunks(n);
            let factors: Vec<String> = maps.map(bracket).collect();
            format!("[factors {}]\n", factors.join(" "))
        };
        self.output.extend_from_slice(text.as_bytes());
    }
}
