//! Algebras to try: groups, lattices, semigroups, automata, products,
//! projections, lifted and random tables, no operations.

use crate::random::Rng;
use crate::reference::algebra::{arguments_of, place_of, Algebra};

/// An algebra with a name for the report.
#[derive(Clone)]
pub struct Named {
    pub name: String,
    pub algebra: Algebra,
}

fn named(name: impl Into<String>, algebra: Algebra) -> Named {
    Named { name: name.into(), algebra }
}

/// An operation as a function of its arguments.
type Operation<'a> = (usize, &'a dyn Fn(&[usize]) -> usize);

/// The algebra over n elements with these operations.
pub fn build(n: usize, operations: &[Operation]) -> Algebra {
    let mut arities = Vec::new();
    let mut cells = Vec::new();
    for (s, f) in operations {
        arities.push(*s as u8);
        for place in 0..n.pow(*s as u32) {
            cells.push(f(&arguments_of(place, *s, n)) as u8);
        }
    }
    Algebra { n, arities, cells }
}

pub fn bare(n: usize) -> Algebra {
    build(n, &[])
}

pub fn cyclic(n: usize) -> Algebra {
    build(n, &[(2, &|a| (a[0] + a[1]) % n)])
}

/// The group of order 2^k in which every element is its own inverse.
pub fn elementary(k: usize) -> Algebra {
    build(1 << k, &[(2, &|a| a[0] ^ a[1])])
}

/// Order 2m: r^i s^j is i + j m.
pub fn dihedral(m: usize) -> Algebra {
    build(2 * m, &[(2, &|a| dihedral_product(m, a[0], a[1]))])
}

fn dihedral_product(m: usize, x: usize, y: usize) -> usize {
    let (i, s) = (x % m, x / m);
    let (k, t) = (y % m, y / m);
    (if s == 0 { i + k } else { i + m - k }) % m + m * (s ^ t)
}

/// A group with its inverse and its neutral element as operations too.
pub fn cyclic_with_inverse(n: usize) -> Algebra {
    build(n, &[(2, &|a| (a[0] + a[1]) % n), (1, &|a| (n - a[0]) % n), (0, &|_| 0)])
}

pub fn chain(n: usize) -> Algebra {
    build(n, &[(2, &|a| a[0].min(a[1])), (2, &|a| a[0].max(a[1]))])
}

pub fn boolean(k: usize) -> Algebra {
    build(1 << k, &[(2, &|a| a[0] & a[1]), (2, &|a| a[0] | a[1])])
}

/// The lattice with k atoms between bottom and top: simple for k >= 3.
pub fn atoms(k: usize) -> Algebra {
    let top = k + 1;
    let meet = move |a: &[usize]| match (a[0], a[1]) {
        (x, y) if x == y => x,
        (x, y) if x == top => y,
        (x, y) if y == top => x,
        _ => 0,
    };
    let join = move |a: &[usize]| match (a[0], a[1]) {
        (x, y) if x == y => x,
        (0, y) => y,
        (x, 0) => x,
        _ => top,
    };
    build(k + 2, &[(2, &meet), (2, &join)])
}

/// The pentagon: 0 < 1 < 2 < 4, 0 < 3 < 4.
pub fn pentagon() -> Algebra {
    let below = |x: usize, y: usize| x == y || x == 0 || y == 4 || (x, y) == (1, 2);
    let meet = move |a: &[usize]| {
        (0..5)
            .filter(|&z| below(z, a[0]) && below(z, a[1]))
            .max_by_key(|&z| (0..5).filter(|&u| below(u, z)).count())
            .unwrap()
    };
    let join = move |a: &[usize]| {
        (0..5)
            .filter(|&z| below(a[0], z) && below(a[1], z))
            .min_by_key(|&z| (0..5).filter(|&u| below(u, z)).count())
            .unwrap()
    };
    build(5, &[(2, &meet), (2, &join)])
}

pub fn median(n: usize) -> Algebra {
    build(
        n,
        &[(3, &|a| {
            let mut b = [a[0], a[1], a[2]];
            b.sort();
            b[1]
        })],
    )
}

/// x - y + z.
pub fn affine(n: usize) -> Algebra {
    build(n, &[(3, &|a| (a[0] + n - a[1] + a[2]) % n)])
}

pub fn ternary_sum(n: usize) -> Algebra {
    build(n, &[(3, &|a| (a[0] + a[1] + a[2]) % n)])
}

pub fn projection(n: usize, arity: usize, which: usize) -> Algebra {
    build(n, &[(arity, &|a| a[which])])
}

/// x + 1 if x = y, else x; past n - 1 it begins anew.
pub fn next_if_equal(n: usize) -> Algebra {
    build(n, &[(2, &|a| if a[0] == a[1] { (a[0] + 1) % n } else { a[0] })])
}

/// The same, but n - 1 stays.
pub fn up_if_equal(n: usize) -> Algebra {
    build(n, &[(2, &|a| if a[0] == a[1] { (a[0] + 1).min(n - 1) } else { a[0] })])
}

pub fn minimum_with_up(n: usize) -> Algebra {
    build(n, &[(2, &|a| a[0].min(a[1])), (1, &|a| (a[0] + 1).min(n - 1))])
}

/// x + y, n - 1 at most, of so many arguments.
pub fn saturated_sum(n: usize, arity: usize) -> Algebra {
    build(n, &[(arity, &|a| a.iter().sum::<usize>().min(n - 1))])
}

/// Gödel's: n - 1 if x is at most y, else y.
pub fn implication(n: usize) -> Algebra {
    build(n, &[(2, &|a| if a[0] <= a[1] { n - 1 } else { a[1] })])
}

/// z if x = y, else x: simple.
pub fn discriminator(n: usize) -> Algebra {
    build(n, &[(3, &|a| if a[0] == a[1] { a[2] } else { a[0] })])
}

/// Classes of elements, which are so many pairs {2j, 2j + 1} and then single elements. A unary operation
/// goes to the first member of the next class. For each mark o a binary one: for y in a pair its first
/// member if x is in class o, else its second; for another y the first member of the class o behind.
pub fn monoliths(n: usize, pairs: usize, marks: usize) -> Algebra {
    let classes = n - pairs;
    let class = move |x: usize| if x < 2 * pairs { x / 2 } else { x - pairs };
    let first = move |c: usize| if c % classes < pairs { 2 * (c % classes) } else { c % classes + pairs };
    let mut algebra = build(n, &[(1, &|a| first(class(a[0]) + 1))]);
    for o in 0..marks {
        let mark = |a: &[usize]| {
            if a[1] < 2 * pairs {
                a[1] / 2 * 2 + usize::from(class(a[0]) != o)
            } else {
                first(class(a[1]) + o)
            }
        };
        algebra = together(&algebra, &build(n, &[(2, &mark)]));
    }
    algebra
}

pub fn unary(n: usize, count: usize, rng: &mut Rng) -> Algebra {
    let cells = (0..n * count).map(|_| rng.below(n) as u8).collect();
    Algebra { n, arities: vec![1; count], cells }
}

pub fn permutations(n: usize, count: usize, rng: &mut Rng) -> Algebra {
    let cells = (0..count).flat_map(|_| rng.permutation(n)).map(|x| x as u8).collect();
    Algebra { n, arities: vec![1; count], cells }
}

/// Random tables with these arities.
pub fn random(n: usize, arities: &[u8], rng: &mut Rng) -> Algebra {
    let count: usize = arities.iter().map(|&s| n.pow(s as u32)).sum();
    let cells = (0..count).map(|_| rng.below(n) as u8).collect();
    Algebra { n, arities: arities.to_vec(), cells }
}

/// Random arities whose tables have at most `limit` cells.
pub fn random_arities(n: usize, limit: usize, rng: &mut Rng) -> Vec<u8> {
    let wanted = rng.below(5);
    let mut arities = Vec::new();
    let mut sum = 0;
    for _ in 0..wanted {
        let s = rng.below(4) as u8;
        let size = n.pow(s as u32);
        if sum + size <= limit {
            sum += size;
            arities.push(s);
        }
    }
    arities
}

/// Tables over n that respect a random map: random tables over the blocks, and
/// for each cell a random member of its block.
pub fn lifted(n: usize, blocks: usize, arities: &[u8], rng: &mut Rng) -> Algebra {
    let map = rng.map(n, blocks);
    let firsts: Vec<usize> = (0..n).filter(|&x| map[x] as usize == x).collect();
    let number: Vec<usize> =
        map.iter().map(|&f| firsts.iter().position(|&g| g == f as usize).unwrap()).collect();
    let b = firsts.len();
    let small = random(b, arities, rng);
    let mut cells = Vec::new();
    for (s, table) in small.operations() {
        for place in 0..n.pow(s as u32) {
            let given: Vec<usize> = arguments_of(place, s, n).into_iter().map(|x| number[x]).collect();
            let block = table[place_of(&given, b)] as usize;
            let members: Vec<usize> = (0..n).filter(|&x| number[x] == block).collect();
            cells.push(*rng.pick(&members) as u8);
        }
    }
    Algebra { n, arities: arities.to_vec(), cells }
}

/// The direct product; (x, y) is x m + y for m elements on the right.
pub fn product(left: &Algebra, right: &Algebra) -> Algebra {
    assert_eq!(left.arities, right.arities);
    let (n, m) = (left.n * right.n, right.n);
    let mut cells = Vec::new();
    for ((s, a), (_, b)) in left.operations().into_iter().zip(right.operations()) {
        for place in 0..n.pow(s as u32) {
            let arguments = arguments_of(place, s, n);
            let of_left: Vec<usize> = arguments.iter().map(|x| x / m).collect();
            let of_right: Vec<usize> = arguments.iter().map(|x| x % m).collect();
            let x = a[place_of(&of_left, left.n)] as usize;
            let y = b[place_of(&of_right, m)] as usize;
            cells.push((x * m + y) as u8);
        }
    }
    Algebra { n, arities: left.arities.clone(), cells }
}

/// The operations of one algebra after those of another over the same n.
pub fn together(a: &Algebra, b: &Algebra) -> Algebra {
    assert_eq!(a.n, b.n);
    Algebra {
        n: a.n,
        arities: [a.arities.clone(), b.arities.clone()].concat(),
        cells: [a.cells.clone(), b.cells.clone()].concat(),
    }
}

/// The same algebra with its elements renamed.
pub fn renamed(algebra: &Algebra, rng: &mut Rng) -> Algebra {
    let n = algebra.n;
    let to = rng.permutation(n);
    let mut cells = Vec::new();
    for (s, table) in algebra.operations() {
        let mut new = vec![0u8; table.len()];
        for (place, &value) in table.iter().enumerate() {
            let arguments: Vec<usize> = arguments_of(place, s, n).into_iter().map(|x| to[x]).collect();
            new[place_of(&arguments, n)] = to[value as usize] as u8;
        }
        cells.extend(new);
    }
    Algebra { n, arities: algebra.arities.clone(), cells }
}

/// Structured algebras with n up to `limit`.
pub fn structured(limit: usize, rng: &mut Rng) -> Vec<Named> {
    let mut list = Vec::new();
    for n in 1..=limit.min(9) {
        list.push(named(format!("no operations, n = {n}"), bare(n)));
        list.push(named(format!("cyclic group {n}"), cyclic(n)));
        list.push(named(format!("cyclic group {n} with inverse"), cyclic_with_inverse(n)));
        list.push(named(format!("chain {n}"), chain(n)));
        list.push(named(format!("median on {n}"), median(n)));
        list.push(named(format!("x - y + z mod {n}"), affine(n)));
        list.push(named(format!("cycle of {n}"), build(n, &[(1, &|a| (a[0] + 1) % n)])));
        list.push(named(format!("counter to {n}"), build(n, &[(1, &|a| (a[0] + 1).min(n - 1))])));
        list.push(named(format!("tree of {n}"), build(n, &[(1, &|a| a[0] / 2)])));
        list.push(named(
            format!("up and down on {n}"),
            build(n, &[(1, &|a| (a[0] + 1).min(n - 1)), (1, &|a| a[0].saturating_sub(1))]),
        ));
        list.push(named(format!("minimum on {n}"), build(n, &[(2, &|a| a[0].min(a[1]))])));
        list.push(named(format!("null semigroup {n}"), build(n, &[(2, &|_| 0)])));
        list.push(named(format!("constants over {n}"), build(n, &[(0, &|_| n - 1), (0, &|_| 0)])));
        for arity in 1..=3 {
            for which in 0..arity {
                list.push(named(
                    format!("projection {which} of {arity} on {n}"),
                    projection(n, arity, which),
                ));
            }
        }
    }
    for (name, algebra) in [
        ("elementary abelian 4", elementary(2)),
        ("dihedral 6", dihedral(3)),
        ("elementary abelian 8", elementary(3)),
        ("dihedral 8", dihedral(4)),
        ("Boolean lattice 4", boolean(2)),
        ("Boolean lattice 8", boolean(3)),
        ("lattice with three atoms", atoms(3)),
        ("pentagon", pentagon()),
        ("product of chains 2 x 3", product(&chain(2), &chain(3))),
        ("product of a pentagon and a chain", product(&pentagon(), &chain(2))),
        ("rectangular band 2 x 3", product(&projection(2, 2, 0), &projection(3, 2, 1))),
        ("cyclic 2 x cyclic 4", product(&cyclic(2), &cyclic(4))),
        ("cyclic 4 x cyclic 6", product(&cyclic(4), &cyclic(6))),
        ("median 3 x median 4", product(&median(3), &median(4))),
        ("group and chain on 6", together(&cyclic(6), &chain(6))),
        ("ring of 12", build(12, &[(2, &|a| (a[0] + a[1]) % 12), (2, &|a| a[0] * a[1] % 12)])),
        ("ring of 30", build(30, &[(2, &|a| (a[0] + a[1]) % 30), (2, &|a| a[0] * a[1] % 30)])),
        ("divisors of 36", product(&chain(3), &chain(3))),
        ("dihedral 20", dihedral(10)),
        ("dihedral 8 x cyclic 3", product(&dihedral(4), &cyclic(3))),
        ("chain 4 x chain 5", product(&chain(4), &chain(5))),
    ] {
        if algebra.n <= limit {
            list.push(named(name, algebra));
        }
    }
    let with_names: Vec<Named> =
        list.iter().map(|one| named(format!("{}, renamed", one.name), renamed(&one.algebra, rng))).collect();
    list.extend(with_names);
    list
}

/// Algebras that are hard for the search of congruences, with n elements: in some all congruences but the
/// identity hold a pair in common, in some there are many factors, some are simple, and in some a
/// congruence is closed after many steps only.
pub fn hard(n: usize, rng: &mut Rng) -> Vec<Named> {
    let of = |name: &str, algebra: Algebra| named(format!("{name}, n = {n}"), algebra);
    let mut list = vec![
        of("monoliths, few pairs", monoliths(n, n.div_ceil(8).min(n / 2), 2)),
        of("monoliths, all in pairs", monoliths(n, n / 2, 3)),
        of("x + 1 if x = y", next_if_equal(n)),
        of("x + 1 if x = y, saturated", up_if_equal(n)),
        of("minimum with up", minimum_with_up(n)),
        of("saturated sum", saturated_sum(n, 2)),
        of("implication", implication(n)),
        of("binary random", random(n, &[2], rng)),
        of("3 unary", unary(n, 3, rng)),
        of("1 unary", unary(n, 1, rng)),
        of("1 unary, a tree", build(n, &[(1, &|a| a[0] / 2)])),
        of("2 permutations", permutations(n, 2, rng)),
        of("no operations", bare(n)),
        of("chain", chain(n)),
        of("projections", together(&projection(n, 2, 0), &projection(n, 2, 1))),
    ];
    if n >= 5 {
        list.push(of("lattice of atoms", atoms(n - 2)));
    }
    if n % 2 == 0 && n > 2 {
        list.push(of("two chains", product(&chain(2), &chain(n / 2))));
        list.push(of("two saturated sums", product(&saturated_sum(2, 2), &saturated_sum(n / 2, 2))));
    }
    if n <= 16 {
        list.push(of("median", median(n)));
        list.push(of("ternary projection", projection(n, 3, 1)));
        list.push(of("ternary saturated sum", saturated_sum(n, 3)));
    }
    if n <= 32 {
        list.push(of("discriminator", discriminator(n)));
    }
    if n == 8 || n == 16 {
        list.push(of("Boolean lattice", boolean(n.ilog2() as usize)));
    }
    list
}

/// Algebras of which Decompose finds many factors, each after many trials: it begins to keep what pairs
/// give.
pub fn slow_to_decompose(n: usize) -> Vec<Named> {
    let of = |name: &str, algebra: Algebra| named(format!("{name}, n = {n}"), algebra);
    let mut list = vec![
        of("no operations", bare(n)),
        of("chain", chain(n)),
        of("projection", projection(n, 2, 0)),
        of("projections", together(&projection(n, 2, 0), &projection(n, 2, 1))),
        of("saturated sum", saturated_sum(n, 2)),
        of("minimum with up", minimum_with_up(n)),
    ];
    if n <= 32 {
        list.push(of("median", median(n)));
    }
    list
}

/// One random algebra of a random kind with n up to `limit`.
pub fn any(limit: usize, cells: usize, rng: &mut Rng) -> Named {
    let n = rng.within(1, limit);
    let arities = random_arities(n, cells, rng);
    match rng.below(8) {
        0 => named("random", random(n, &arities, rng)),
        1 | 2 => {
            let blocks = rng.within(1, n);
            named("lifted", lifted(n, blocks, &arities, rng))
        }
        3 => {
            let count = rng.within(1, 4);
            named("unary", unary(n, count, rng))
        }
        4 => {
            let count = rng.within(1, 2);
            named("permutations", permutations(n, count, rng))
        }
        5 => {
            // A product of two random algebras, if both have room.
            let left = rng.within(1, n);
            let right = (n / left).max(1);
            let a = random(left, &arities, rng);
            let b = random(right, &arities, rng);
            named("product", product(&a, &b))
        }
        6 => {
            // Few values: random tables that hit a small set only.
            let values = rng.within(1, n.min(3));
            let mut a = random(n, &arities, rng);
            for c in &mut a.cells {
                *c %= values as u8;
            }
            named("few values", a)
        }
        _ => {
            // Mostly the first argument, with some cells changed.
            let mut a = random(n, &arities, rng);
            let mut at = 0;
            for &s in &arities {
                let size = n.pow(s as u32);
                for place in 0..size {
                    if s > 0 && !rng.once_in(12) {
                        a.cells[at + place] = arguments_of(place, s as usize, n)[0] as u8;
                    }
                }
                at += size;
            }
            named("near a projection", a)
        }
    }
}

/// One random algebra, sometimes damaged so that one of 1 to 6 applies.
pub fn sometimes_damaged(limit: usize, cells: usize, rng: &mut Rng) -> Algebra {
    let mut a = any(limit, cells, rng).algebra;
    match rng.below(40) {
        0 => a.n = *rng.pick(&[0, 65, 256, usize::MAX]),
        1 => a.arities.push(4),
        2 => a.arities = vec![0; 17],
        3 => a.cells.push(0),
        4 => {
            a.cells.pop();
        }
        5 if !a.cells.is_empty() => {
            let i = rng.below(a.cells.len());
            a.cells[i] = rng.byte();
        }
        6 => {
            a.n = 64;
            a.arities = vec![3];
        }
        _ => {}
    }
    a
}

/// The full-size algebras of the benchmarks.
pub fn workloads(rng: &mut Rng) -> Vec<Named> {
    let eight = dihedral(4);
    let mut product_of_eight = chain(64);
    product_of_eight.arities.clear();
    product_of_eight.cells.clear();
    for k in 0..8 {
        let left = build(8, &[(2, &|a| (a[0] * (k + 1) + a[1]) % 8)]);
        let right = build(8, &[(2, &|a| (a[0] + a[1] * (2 * k + 1)) % 8)]);
        product_of_eight = together(&product_of_eight, &product(&left, &right));
    }
    let mut projections = bare(64);
    for k in 0..8 {
        projections = together(&projections, &projection(64, 2, k % 2));
    }
    vec![
        named("elementary abelian 64", elementary(6)),
        named("cyclic 64", cyclic(64)),
        named("dihedral 64", dihedral(32)),
        named("dihedral 8 x dihedral 8", product(&eight, &eight)),
        named("chain 64", chain(64)),
        named("Boolean lattice 64", boolean(6)),
        named("ternary sum 32", ternary_sum(32)),
        named("median 32", median(32)),
        named("ternary projection 32", projection(32, 3, 1)),
        named("ternary random 32", random(32, &[3], rng)),
        named("1 unary 64", unary(64, 1, rng)),
        named("16 unary 64", unary(64, 16, rng)),
        named("no operations 64", bare(64)),
        named("8 binary 64: a product", product_of_eight),
        named("8 binary 64: projections", projections),
        named("8 binary 64: random", random(64, &[2; 8], rng)),
    ]
}
