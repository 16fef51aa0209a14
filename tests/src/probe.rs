//! The services that only the probe makes callable (tests/PROBE.md).

#[cfg(not(have_probe))]
pub fn suites(_run: &mut outside_tests::report::Run) -> bool {
    false
}

#[cfg(have_probe)]
pub use linked::suites;

#[cfg(have_probe)]
mod linked {
    use outside_tests::algebras;
    use outside_tests::random::Rng;
    use outside_tests::reference::algebra::Algebra;
    use outside_tests::reference::brute;
    use outside_tests::reference::map;
    use outside_tests::reference::plain::Plain;
    use outside_tests::reference::service::{prefer, Answer, Reference};
    use outside_tests::reference::Engine;
    use outside_tests::report::{Run, Suite};

    use crate::bench;
    use crate::compare::{ask_certify, ask_decompose, ask_quotient, count_of, Guarded};
    use crate::ffi::{baseline, probe, worksheet, Library, WithMaps, WithSlice};

    /// A map, sometimes damaged into none.
    fn some_map(n: usize, rng: &mut Rng) -> Vec<u8> {
        let size = n.clamp(1, 64);
        let most = rng.within(1, size);
        let mut bytes = rng.map(size, most);
        match rng.below(24) {
            0 => bytes.push(0),
            1 => {
                bytes.pop();
            }
            2 => {
                let i = rng.below(size);
                bytes[i] = rng.byte();
            }
            3 => {
                let i = rng.below(size);
                bytes[i] = rng.below(size) as u8;
            }
            4 => bytes.clear(),
            _ => {}
        }
        bytes
    }

    fn some_size(limit: usize, rng: &mut Rng) -> usize {
        match rng.below(30) {
            0 => *rng.pick(&[0, 65, 255, 256, 257, 1 << 32, usize::MAX]),
            1 => 64,
            _ => rng.within(1, limit),
        }
    }

    fn some_length(wanted: usize, rng: &mut Rng) -> usize {
        match rng.below(8) {
            0 => rng.below(wanted + 1),
            1 | 2 => wanted + rng.below(40),
            _ => wanted,
        }
    }

    type OfMaps = unsafe extern "C" fn(usize, *const u8, usize, *const u8, usize, *mut u8, usize) -> u32;

    fn of_maps(f: OfMaps, n: usize, a: &[u8], b: &[u8], lent: &[u8], rng: &mut Rng) -> (Answer, bool) {
        let (mut a, mut b) = (Guarded::new(a, rng), Guarded::new(b, rng));
        let mut out = Guarded::new(lent, rng);
        let (al, bl, ol) = (a.len(), b.len(), out.len());
        let number = unsafe { f(n, a.pointer(), al, b.pointer(), bl, out.pointer(), ol) };
        let untouched = a.is_intact() && b.is_intact() && out.is_intact_around();
        (Answer { number, lent: out.content() }, untouched)
    }

    fn two_maps(s: &mut Suite, f: OfMaps, is_join: bool) {
        let mut reference = Reference::<Plain>::default();
        for round in 0..20_000 {
            let limit = if round % 4 == 0 { 64 } else { 7 };
            let n = some_size(limit, &mut s.rng);
            let (a, b) = (some_map(n, &mut s.rng), some_map(n, &mut s.rng));
            let length = some_length(n.min(64), &mut s.rng);
            let lent = s.rng.bytes(length);
            let wanted =
                if is_join { reference.join(n, &a, &b, &lent) } else { reference.meet(n, &a, &b, &lent) };
            let (found, untouched) = of_maps(f, n, &a, &b, &lent, &mut s.rng);
            s.check(found == wanted && untouched, || {
                format!("  n = {n}, {a:?}, {b:?}, lent {lent:?}\n  found    {found:?}\n  expected {wanted:?}\n  all else untouched: {untouched}")
            });
            if s.is_over() {
                break;
            }
        }
        // All pairs of maps over four elements.
        for a in brute::maps(4) {
            for b in brute::maps(4) {
                let lent = [9; 5];
                let wanted =
                    if is_join { reference.join(4, &a, &b, &lent) } else { reference.meet(4, &a, &b, &lent) };
                let found = of_maps(f, 4, &a, &b, &lent, &mut s.rng);
                s.same("two maps", found, (wanted, true));
            }
        }
    }

    fn preferred(s: &mut Suite) {
        for round in 0..20_000 {
            let limit = if round % 4 == 0 { 64 } else { 5 };
            let n = some_size(limit, &mut s.rng);
            let a = some_map(n, &mut s.rng);
            let b = if s.rng.once_in(6) { a.clone() } else { some_map(n, &mut s.rng) };
            let lent = s.rng.bytes(a.len() + b.len() + 3);
            let mut wanted = prefer(n, &a, &b).to_vec();
            let length = wanted.len();
            wanted.extend_from_slice(&lent[length..]);
            let (mut ga, mut gb) = (Guarded::new(&a, &mut s.rng), Guarded::new(&b, &mut s.rng));
            let mut out = Guarded::new(&lent, &mut s.rng);
            let (al, bl, ol) = (ga.len(), gb.len(), out.len());
            let found =
                unsafe { probe::probe_prefer(n, ga.pointer(), al, gb.pointer(), bl, out.pointer(), ol) };
            let untouched = ga.is_intact() && gb.is_intact() && out.is_intact_around();
            s.check(found == length && out.content() == wanted && untouched, || {
                format!(
                    "  n = {n}, {a:?}, {b:?}\n  found    {found} {:?}\n  expected {length} {wanted:?}",
                    out.content()
                )
            });
            if s.is_over() {
                break;
            }
        }
    }

    /// Any two bytes, against the reference; and the pairs of 64 elements, as they follow each
    /// other, against a count from 0.
    fn places(s: &mut Suite) {
        let mut next = 0;
        for x in 0..=255u8 {
            for y in 0..=255u8 {
                let found = unsafe { probe::probe_place(x, y) };
                let wanted = map::place(x as usize, y as usize).unwrap_or(65_535);
                s.same(&format!("place of ({x}, {y})"), found, wanted);
                if x < y && y < 64 {
                    s.same(&format!("place of ({x}, {y}), by count"), found, next);
                    next += 1;
                }
            }
        }
        s.same("pairs", next, 2016);
    }

    fn quotients(s: &mut Suite, f: WithSlice, rounds: usize) {
        let mut reference = Reference::<Plain>::default();
        let mut seen = [0u32; 256];
        for round in 0..rounds {
            let (limit, cells) = if round % 100 == 0 { (64, 6000) } else { (7, 400) };
            let a = algebras::sometimes_damaged(limit, cells, &mut s.rng);
            let mut given = some_map(a.n, &mut s.rng);
            let good = outside_tests::reference::algebra::reason(a.n, &a.arities, &a.cells) == 0;
            if good && map::is_map(a.n, &given) && !s.rng.once_in(4) {
                // A congruence that holds a pair or two.
                let engine = reference.engine(a.n, &a.arities, &a.cells);
                let count = s.rng.below(3);
                let pairs: Vec<(usize, usize)> =
                    (0..count).map(|_| (s.rng.below(a.n), s.rng.below(a.n))).collect();
                given = engine.least(&pairs);
            }
            let b = given.iter().enumerate().filter(|(x, &f)| *x == f as usize).count();
            let wanted: usize = a.arities.iter().take(16).map(|&k| b.pow(k.min(3) as u32)).sum();
            let length = some_length(wanted.min(40_000), &mut s.rng);
            let lent = s.rng.bytes(length);
            let expected = reference.quotient(a.n, &a.arities, &a.cells, &given, &lent);
            seen[expected.number as usize & 255] += 1;
            let (found, untouched) = ask_quotient(f, &a, &given, &lent, &mut s.rng);
            s.check(found == expected && untouched, || {
                format!("  {a:?}\n  map {given:?}, lent {lent:?}\n  found    {found:?}\n  expected {expected:?}\n  all else untouched: {untouched}")
            });
            if s.is_over() {
                break;
            }
        }
        for number in [0, 1, 2, 3, 4, 5, 6, 8, 9, 12] {
            s.check(seen[number] > 0, || format!("  no case with reason {number}"));
        }
    }

    fn certificates(s: &mut Suite, f: WithMaps, rounds: usize) {
        let mut reference = Reference::<Plain>::default();
        let mut seen = [0u32; 3];
        for round in 0..rounds {
            let (limit, cells) = if round % 100 == 0 { (40, 3000) } else { (6, 300) };
            let a = algebras::sometimes_damaged(limit, cells, &mut s.rng);
            let n = a.n;
            let maps = some_list(&mut reference, &a, &mut s.rng);
            let expected = match reference.certify(n, &a.arities, &a.cells, &maps) {
                Ok(yes) => 256 * yes as u32,
                Err(refusal) => refusal,
            };
            seen[match expected {
                256 => 0,
                0 => 1,
                _ => 2,
            }] += 1;
            let (found, untouched) = ask_certify(f, &a, &maps, &mut s.rng);
            s.check(found == expected && untouched, || {
                format!(
                    "  {a:?}\n  maps {maps:?}\n  found {found}, expected {expected}, untouched {untouched}"
                )
            });
            if s.is_over() {
                break;
            }
        }
        for (kind, count) in ["yes", "no", "refused"].iter().zip(seen) {
            s.check(count > 50, || format!("  only {count} cases with the answer {kind}"));
        }
    }

    /// A list of maps: Decompose's own, changed, or any.
    fn some_list(reference: &mut Reference<Plain>, a: &Algebra, rng: &mut Rng) -> Vec<u8> {
        let n = a.n;
        if outside_tests::reference::algebra::reason(n, &a.arities, &a.cells) != 0 {
            return (0..rng.below(3)).flat_map(|_| some_map(n, &mut rng.clone())).collect();
        }
        let own = reference.decompose(n, &a.arities, &a.cells, &vec![0; n * n]);
        let mut list: Vec<Vec<u8>> = if own.number & 255 == 0 {
            own.lent[..own.number as usize / 256 * n].chunks(n).map(|m| m.to_vec()).collect()
        } else {
            vec![map::identity(n)]
        };
        let engine = reference.engine(n, &a.arities, &a.cells);
        match rng.below(14) {
            0 => {
                list.pop();
            }
            1 => list.push(map::all(n)),
            2 => list.push(map::identity(n)),
            3 => list.push(list[0].clone()),
            4 => list.push(some_map(n, rng)),
            5 => {
                let i = rng.below(list.len());
                list[i] = engine.greatest_inside(&list[i]);
                let j = rng.below(list.len());
                let other = list[j].clone();
                list[i] = engine.meet(&list[i], &other);
            }
            6 => list.reverse(),
            7 => list = (0..rng.within(60, 66)).map(|_| map::identity(n)).collect(),
            8 => {
                let (v, w) = (rng.below(n), rng.below(n));
                if v != w {
                    list.push(engine.separate(v, w));
                }
            }
            9 => {
                let i = rng.below(list.len());
                list[i] = engine.least(&[(rng.below(n), rng.below(n))]);
            }
            10 => list = vec![some_map(n, rng)],
            _ => {}
        }
        let mut bytes = list.concat();
        if rng.once_in(25) {
            bytes.pop();
        }
        bytes
    }

    fn documents(s: &mut Suite) {
        let (u, given) = ([1u8, 0, 3, 2], [0u8, 1, 0, 3]);
        for (length, number) in [(14, 12), (3, 12), (2, 9), (0, 9)] {
            let mut out = vec![7u8; 14];
            let found = unsafe {
                probe::probe_quotient(
                    4,
                    [1u8].as_ptr(),
                    1,
                    u.as_ptr(),
                    4,
                    given.as_ptr(),
                    4,
                    out.as_mut_ptr(),
                    length,
                )
            };
            s.same("cells 1 0 3 2, map 0 1 0 3", (found, out), (number, vec![7; 14]));
        }
        let mut out = vec![7u8; 4];
        let found = unsafe {
            probe::probe_quotient(
                4,
                [1u8].as_ptr(),
                1,
                u.as_ptr(),
                4,
                [0u8, 1, 0, 1].as_ptr(),
                4,
                out.as_mut_ptr(),
                4,
            )
        };
        s.same("quotient by 0 1 0 1", (found, out), (512, vec![1, 0, 7, 7]));
        for (maps, number) in [
            (&[0u8, 1, 0, 1, 0, 0, 2, 2][..], 256),
            (&[0, 1, 0, 1][..], 0),
            (&[0, 1, 2, 3][..], 0),
            (&[][..], 0),
            (&[0, 2, 2, 3][..], 8),
            (&[0, 1, 0][..], 8),
        ] {
            let found = unsafe {
                probe::probe_certify(4, [1u8].as_ptr(), 1, u.as_ptr(), 4, maps.as_ptr(), maps.len())
            };
            s.same(&format!("certify {maps:?}"), found, number);
        }
    }

    /// Demand 3 through the product's own calls: Decompose; Quotient by each
    /// factor as listed; Decompose on what that gave, which must be refusal 11.
    /// Each is lent just what it writes, the last one nothing.
    fn demand_three(s: &mut Suite, library: Library) {
        let mut list = algebras::structured(16, &mut s.rng);
        list.extend(algebras::workloads(&mut s.rng));
        for _ in 0..3000 {
            list.push(algebras::any(10, 1000, &mut s.rng));
        }
        for one in list {
            let a = &one.algebra;
            let known = count_of(&library, a, &mut s.rng);
            let (answer, untouched) = ask_decompose(&library, a, known * a.n, &mut s.rng);
            let [reason, count, _, _] = answer.number.to_le_bytes();
            let wanted = if known == 0 { 11 } else { 0 };
            s.check(untouched && reason == wanted && count as usize == known, || {
                format!("  {} {a:?}\n  {answer:?}, not {known} factors", one.name)
            });
            for factor in answer.lent.chunks(a.n) {
                let b = map::blocks(factor);
                let wanted = a.arities.iter().map(|&k| b.pow(k as u32)).sum();
                let lent = s.rng.bytes(wanted);
                let (divided, intact) = ask_quotient(probe::probe_quotient, a, factor, &lent, &mut s.rng);
                let quotient = Algebra { n: b, arities: a.arities.clone(), cells: divided.lent };
                let (again, untouched) = ask_decompose(&library, &quotient, 0, &mut s.rng);
                let good = divided.number == 256 * b as u32 && again.number & 255 == 11;
                s.check(good && intact && untouched, || {
                    format!(
                        "  {} {a:?}\n  factor {factor:?}: quotient {}, then {again:?}",
                        one.name, divided.number
                    )
                });
            }
            if s.is_over() {
                break;
            }
        }
    }

    pub fn suites(run: &mut Run) -> bool {
        run.suite("probe: document 01's values", documents);
        run.suite("probe: meet", |s| two_maps(s, probe::probe_meet, false));
        run.suite("probe: join", |s| two_maps(s, probe::probe_join, true));
        run.suite("probe: prefer", preferred);
        run.suite("probe: pair places", places);
        if let Some(library) = baseline() {
            run.suite("baseline: quotient", |s| quotients(s, library.quotient.unwrap(), 5000));
            run.suite("baseline: certify", |s| certificates(s, library.certify.unwrap(), 5000));
        }
        run.suite("probe: quotient", |s| quotients(s, probe::probe_quotient, 20_000));
        run.suite("probe: certify", |s| certificates(s, probe::probe_certify, 20_000));
        bench::suites(run);
        if let Some(library) = worksheet() {
            run.suite("probe: demand 3 through the product's own calls", |s| demand_three(s, library));
        }
        true
    }
}
