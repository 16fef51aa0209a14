//! Maps over n elements, pairs and their order.

pub type Map = Vec<u8>;

/// n bytes; each names the smallest member of its block.
pub fn is_map(n: usize, bytes: &[u8]) -> bool {
    bytes.len() == n
        && (0..n).all(|x| {
            let first = bytes[x] as usize;
            first <= x && bytes[first] as usize == first
        })
}

pub fn identity(n: usize) -> Map {
    (0..n).map(|x| x as u8).collect()
}

pub fn all(n: usize) -> Map {
    vec![0; n]
}

pub fn holds(map: &[u8], x: usize, y: usize) -> bool {
    map[x] == map[y]
}

/// Elements that name themselves.
pub fn blocks(map: &[u8]) -> usize {
    (0..map.len()).filter(|&x| map[x] as usize == x).count()
}

/// The map of the equivalence "has the same label".
pub fn of_labels<T: PartialEq>(labels: &[T]) -> Map {
    labels.iter().map(|l| labels.iter().position(|k| k == l).unwrap() as u8).collect()
}

/// The pairs (x, y) with x < y < n, in order.
pub fn pairs(n: usize) -> impl Iterator<Item = (usize, usize)> {
    (0..n).flat_map(move |x| (x + 1..n).map(move |y| (x, y)))
}

/// Whether every pair that a holds is held by b.
pub fn inside(a: &[u8], b: &[u8]) -> bool {
    pairs(a.len()).all(|(x, y)| !holds(a, x, y) || holds(b, x, y))
}

/// Whether a is the earlier of two different equivalences.
pub fn is_earlier(a: &[u8], b: &[u8]) -> bool {
    pairs(a.len()).find(|&(x, y)| holds(a, x, y) != holds(b, x, y)).is_some_and(|(x, y)| holds(a, x, y))
}

/// The first pair that a map holds.
pub fn first_held(map: &[u8]) -> Option<(usize, usize)> {
    pairs(map.len()).find(|&(x, y)| holds(map, x, y))
}

/// The place of a pair with x < y < 64: the pairs in the rows before x when
/// n = 64, then the pairs before y in its row.
pub fn place(x: usize, y: usize) -> Option<u32> {
    if x < y && y < 64 {
        let start: usize = (0..x).map(|row| 63 - row).sum();
        Some((start + y - x - 1) as u32)
    } else {
        None
    }
}
