//! Algebra texts: their lines, what these come to, the reader and the writer.
//!
//! A line is first read as a tree of brackets, words and numbers; then the tree
//! is compared with the forms.

use super::algebra::{reason, Algebra};

/// Deeper than any form: a line, a table and its rows need four.
const DEEP: usize = 8;

#[derive(Clone, Debug, PartialEq)]
pub enum Item {
    Number(u8),
    Word(String),
    Bracket(Vec<Item>),
}

use Item::*;

/// The lines of a text; the last one may lack its end.
pub fn lines(text: &[u8]) -> impl Iterator<Item = Line<'_>> {
    text.split_inclusive(|&b| b == 10).map(|line| match line {
        [bytes @ .., 10] => Line { bytes, ended: true },
        bytes => Line { bytes, ended: false },
    })
}

pub struct Line<'a> {
    pub bytes: &'a [u8],
    ended: bool,
}

impl Line<'_> {
    /// The line as one bracket, or none: a faulty form.
    pub fn tree(&self) -> Option<Vec<Item>> {
        if !self.ended {
            return None;
        }
        // Open brackets, innermost last; a closed item goes into the one around it.
        let mut open: Vec<Vec<Item>> = Vec::new();
        let mut at = 0;
        let bytes = self.bytes;
        loop {
            // An item starts here.
            let mut item = match *bytes.get(at)? {
                b'[' => {
                    at += 1;
                    if *bytes.get(at)? != b']' {
                        if open.len() == DEEP {
                            return None;
                        }
                        open.push(Vec::new());
                        continue;
                    }
                    at += 1;
                    Bracket(Vec::new())
                }
                b'0'..=b'9' => Number(number(run(bytes, &mut at, |b| b.is_ascii_digit()))?),
                b'a'..=b'z' => {
                    let word = run(bytes, &mut at, |b| b.is_ascii_lowercase());
                    Word(String::from_utf8(word.to_vec()).unwrap())
                }
                _ => return None,
            };
            // An item has ended: go out of every bracket that ends here too.
            loop {
                let Some(around) = open.last_mut() else {
                    return match item {
                        Bracket(items) if at == bytes.len() => Some(items),
                        _ => None,
                    };
                };
                around.push(item);
                match *bytes.get(at)? {
                    b' ' => {
                        at += 1;
                        break;
                    }
                    b']' => {
                        at += 1;
                        item = Bracket(open.pop().unwrap());
                    }
                    _ => return None,
                }
            }
        }
    }
}

/// The bytes from here on that satisfy the test.
fn run<'a>(bytes: &'a [u8], at: &mut usize, test: impl Fn(&u8) -> bool) -> &'a [u8] {
    let start = *at;
    while *at < bytes.len() && test(&bytes[*at]) {
        *at += 1;
    }
    &bytes[start..*at]
}

/// 0 to 255 in base ten without leading zeros.
fn number(digits: &[u8]) -> Option<u8> {
    let text = std::str::from_utf8(digits).ok()?;
    let value: u8 = text.parse().ok()?;
    (value.to_string() == text).then_some(value)
}

/// The algebra of the size line and the operation lines so far.
#[derive(Default)]
pub struct Reading {
    pub n: Option<usize>,
    pub arities: Vec<u8>,
    pub cells: Vec<u8>,
}

impl Reading {
    /// The reason that a size line draws, if it draws one.
    pub fn size_line(&mut self, line: &Line) -> Result<(), u32> {
        let tree = line.tree().ok_or(14u32)?;
        let [Word(word), Number(n)] = tree.as_slice() else {
            return Err(14);
        };
        if word != "size" {
            return Err(14);
        }
        match reason(*n as usize, &[], &[]) {
            0 => self.n = Some(*n as usize),
            refusal => return Err(refusal),
        }
        Ok(())
    }

    /// Reasons 2, 3 and 4 once the arity and the space after it are read.
    fn early_refusal(&self, line: &Line, n: usize) -> Option<u32> {
        let mut at = b"[op ".len();
        let arity = number(run(line.bytes, &mut at, |b| b.is_ascii_digit()))?;
        if line.bytes.get(at) != Some(&b' ') {
            return None;
        }
        if self.arities.len() == 16 {
            return Some(2);
        }
        if arity > 3 {
            return Some(3);
        }
        if self.cells.len() + n.pow(arity as u32) > 32768 {
            return Some(4);
        }
        None
    }

    /// The reason that a line which begins with `[op ` draws, if it draws one.
    pub fn operation_line(&mut self, line: &Line, n: usize) -> Result<(), u32> {
        if let Some(refusal) = self.early_refusal(line, n) {
            return Err(refusal);
        }
        let tree = line.tree().ok_or(14u32)?;
        let [Word(_), Number(arity), table] = tree.as_slice() else {
            return Err(14);
        };
        let mut cells = Vec::new();
        if !read_table(table, *arity, n, &mut cells) {
            return Err(14);
        }
        if cells.iter().any(|&c| c as usize >= n) {
            return Err(6);
        }
        self.arities.push(*arity);
        self.cells.extend(cells);
        Ok(())
    }
}

/// Whether a line is an operation line, right or wrong.
pub fn begins_operation(line: &Line) -> bool {
    line.bytes.starts_with(b"[op ")
}

/// The cells of a table of arity s in order; false if it is none.
fn read_table(item: &Item, s: u8, n: usize, cells: &mut Vec<u8>) -> bool {
    match item {
        Number(value) if s == 0 => {
            cells.push(*value);
            true
        }
        Bracket(rows) if s > 0 => rows.len() == n && rows.iter().all(|row| read_table(row, s - 1, n, cells)),
        _ => false,
    }
}

pub fn numbers(items: &[Item]) -> Option<Vec<u8>> {
    items
        .iter()
        .map(|item| match item {
            Number(value) => Some(*value),
            _ => None,
        })
        .collect()
}

pub fn spaced(bytes: &[u8]) -> String {
    let words: Vec<String> = bytes.iter().map(|b| b.to_string()).collect();
    words.join(" ")
}

pub fn bracket(bytes: &[u8]) -> String {
    format!("[{}]", spaced(bytes))
}

/// What the reader leaves: its reason; n, the count of operations and their
/// arities; the count of cells; the lent bytes.
#[derive(Clone, Debug, PartialEq, Eq)]
pub struct Read {
    pub reason: u32,
    pub head: [u8; 18],
    pub cells: usize,
    pub lent: Vec<u8>,
}

/// The library's reader.
pub fn read(text: &[u8], lent: &[u8]) -> Read {
    match judged(text, lent.len()) {
        Ok(algebra) => accepted(&algebra, lent),
        Err(reason) => Read { reason, head: [0; 18], cells: 0, lent: lent.to_vec() },
    }
}

/// The algebra of a text, or the first refusal.
fn judged(text: &[u8], lent: usize) -> Result<Algebra, u32> {
    if lent < 32768 {
        return Err(9);
    }
    let mut reading = Reading::default();
    for line in lines(text) {
        match reading.n {
            None => reading.size_line(&line)?,
            Some(n) if begins_operation(&line) => reading.operation_line(&line, n)?,
            Some(_) => return Err(14),
        }
    }
    let n = reading.n.ok_or(14u32)?;
    Ok(Algebra { n, arities: reading.arities, cells: reading.cells })
}

fn accepted(algebra: &Algebra, lent: &[u8]) -> Read {
    let mut head = [0; 18];
    head[0] = algebra.n as u8;
    head[1] = algebra.arities.len() as u8;
    head[2..2 + algebra.arities.len()].copy_from_slice(&algebra.arities);
    let cells = algebra.cells.len();
    let mut after = lent.to_vec();
    after[..cells].copy_from_slice(&algebra.cells);
    Read { reason: 0, head, cells, lent: after }
}

/// What the writer leaves: its reason, the text's length, the lent bytes.
#[derive(Clone, Debug, PartialEq, Eq)]
pub struct Written {
    pub reason: u32,
    pub length: usize,
    pub lent: Vec<u8>,
}

/// The library's writer.
pub fn write(n: usize, arities: &[u8], cells: &[u8], lent: &[u8]) -> Written {
    let refused = |reason| Written { reason, length: 0, lent: lent.to_vec() };
    let refusal = reason(n, arities, cells);
    if refusal != 0 {
        return refused(refusal);
    }
    let text = algebra_text(&Algebra { n, arities: arities.to_vec(), cells: cells.to_vec() });
    if lent.len() < text.len() {
        return refused(9);
    }
    let mut after = lent.to_vec();
    after[..text.len()].copy_from_slice(text.as_bytes());
    Written { reason: 0, length: text.len(), lent: after }
}

/// The size line and the operation lines of an algebra.
pub fn algebra_text(algebra: &Algebra) -> String {
    let mut text = format!("[size {}]\n", algebra.n);
    for (s, cells) in algebra.operations() {
        text += &format!("[op {s} {}]\n", table_text(cells, s, algebra.n));
    }
    text
}

fn table_text(cells: &[u8], s: usize, n: usize) -> String {
    match s {
        0 => cells[0].to_string(),
        1 => bracket(cells),
        _ => {
            let rows: Vec<String> =
                cells.chunks(cells.len() / n).map(|row| table_text(row, s - 1, n)).collect();
            format!("[{}]", rows.join(" "))
        }
    }
}
