//! The bench: eight sheets over one n, each with a tally and up to eight named
//! points. Document 02's third request has made the tally longer, its fifth has
//! brought the points, its sixth a tally for each sheet; a bench from before any
//! of them is converted to the next kind.

use super::algebra::reason;
use super::map::{blocks, identity, is_map};
use super::service::Reference;
use super::Engine;

/// The largest tally of the first kind of bench and of the later ones.
pub const OLD_TOP: u64 = 4_294_967_295;
pub const TOP: u64 = 18_446_744_073_709_551_615;

/// What stores a map: its first n bytes are the map, the others are never read.
pub type Stored = [u8; 64];

/// The maps of the eight sheets.
pub type Maps = [Stored; 8];

/// Any eight bytes; two names are one if all eight are equal.
pub type Name = [u8; 8];

#[derive(Clone, Copy, Debug, PartialEq, Eq)]
pub struct Point {
    pub name: Name,
    pub map: Stored,
}

/// The places before the count hold the sheet's points; the others are free and
/// never read.
#[derive(Clone, Copy, Debug, PartialEq, Eq)]
pub struct Sheet {
    pub map: Stored,
    pub tally: u64,
    pub count: usize,
    pub points: [Point; 8],
}

/// `earlier` is the total from before the sheets had tallies.
#[derive(Clone, Debug, PartialEq, Eq)]
pub struct Bench {
    pub n: usize,
    pub sheets: [Sheet; 8],
    pub earlier: u64,
}

/// A sheet as it was before it had a tally.
#[derive(Clone, Copy, Debug, PartialEq, Eq)]
pub struct SheetV3 {
    pub map: Stored,
    pub count: usize,
    pub points: [Point; 8],
}

/// A bench as it was with one tally for its eight sheets: the third kind.
#[derive(Clone, Debug, PartialEq, Eq)]
pub struct BenchV3 {
    pub n: usize,
    pub sheets: [SheetV3; 8],
    pub tally: u64,
}

/// A bench as it was before the points: the second kind.
#[derive(Clone, Debug, PartialEq, Eq)]
pub struct BenchV2 {
    pub n: usize,
    pub maps: Maps,
    pub tally: u64,
}

/// A bench as it was before the longer tally: the first kind.
#[derive(Clone, Debug, PartialEq, Eq)]
pub struct BenchV1 {
    pub n: usize,
    pub maps: Maps,
    pub tally: u32,
}

impl Point {
    pub const ZEROS: Point = Point { name: [0; 8], map: [0; 64] };
}

impl Sheet {
    /// A sheet without points, whose places are all zero.
    pub const fn bare(map: Stored) -> Sheet {
        Sheet::begun(SheetV3::bare(map))
    }

    /// The old sheet with a tally, which begins at 0.
    pub const fn begun(old: SheetV3) -> Sheet {
        Sheet { map: old.map, tally: 0, count: old.count, points: old.points }
    }

    /// The points, where there are not too many.
    pub fn held(&self) -> &[Point] {
        &self.points[..self.count]
    }

    /// The place of the point with this name.
    fn place_of(&self, name: Name) -> Option<usize> {
        self.held().iter().position(|point| point.name == name)
    }

    fn is_faultless(&self, n: usize) -> bool {
        is_map(n, &self.map[..n])
            && self.count <= 8
            && self.held().iter().all(|point| is_map(n, &point.map[..n]))
            && (0..self.count).all(|place| self.place_of(self.points[place].name) == Some(place))
    }
}

impl Bench {
    pub fn zeros() -> Bench {
        Bench { n: 0, sheets: [Sheet::bare([0; 64]); 8], earlier: 0 }
    }

    fn is_faultless(&self) -> bool {
        self.sheets.iter().all(|sheet| sheet.is_faultless(self.n))
    }

    pub fn maps(&self) -> Maps {
        self.sheets.map(|sheet| sheet.map)
    }
}

impl SheetV3 {
    pub const fn bare(map: Stored) -> SheetV3 {
        SheetV3 { map, count: 0, points: [Point::ZEROS; 8] }
    }
}

impl BenchV3 {
    pub fn zeros() -> BenchV3 {
        BenchV3 { n: 0, sheets: [SheetV3::bare([0; 64]); 8], tally: 0 }
    }

    pub fn maps(&self) -> Maps {
        self.sheets.map(|sheet| sheet.map)
    }
}

impl BenchV2 {
    pub fn zeros() -> BenchV2 {
        BenchV2 { n: 0, maps: [[0; 64]; 8], tally: 0 }
    }
}

fn is_size(n: usize) -> bool {
    (1..=64).contains(&n)
}

// ---- Start, Add, Clear ---------------------------------------------------------

/// The reason, or 0, and the bench.
pub fn start(n: usize) -> (u32, Bench) {
    let mut bench = Bench::zeros();
    if !is_size(n) {
        return (1, bench);
    }
    bench.n = n;
    for sheet in &mut bench.sheets {
        sheet.map[..n].copy_from_slice(&identity(n));
    }
    (0, bench)
}

#[allow(clippy::too_many_arguments)]
pub fn add<E: Engine>(
    reference: &mut Reference<E>,
    bench: &Bench,
    n: usize,
    arities: &[u8],
    cells: &[u8],
    sheet: usize,
    x: usize,
    y: usize,
) -> (u32, Bench) {
    let refusal = reason(n, arities, cells);
    if refusal != 0 {
        return (refusal, bench.clone());
    }
    if sheet > 7 || x >= n || y >= n {
        return (7, bench.clone());
    }
    if bench.n != n || !bench.is_faultless() {
        return (8, bench.clone());
    }
    let old = &bench.sheets[sheet].map[..n];
    let new = reference.least_above(n, arities, cells, old, x, y);
    let lost = blocks(old) - blocks(&new);
    let tally = u128::from(bench.sheets[sheet].tally) + lost as u128;
    if tally > u128::from(TOP) {
        return (13, bench.clone());
    }
    let mut after = bench.clone();
    after.sheets[sheet].map[..n].copy_from_slice(&new);
    after.sheets[sheet].tally = tally as u64;
    (0, after)
}

/// A call on one sheet of a bench: 1, 7 and 8, then what it does, which gives a
/// number of its own or 0.
fn on_sheet(bench: &Bench, sheet: usize, call: impl FnOnce(usize, &mut Sheet) -> u32) -> (u32, Bench) {
    let mut after = bench.clone();
    let number = if !is_size(bench.n) {
        1
    } else if sheet > 7 {
        7
    } else if !bench.is_faultless() {
        8
    } else {
        call(bench.n, &mut after.sheets[sheet])
    };
    (number, after)
}

pub fn clear(bench: &Bench, sheet: usize) -> (u32, Bench) {
    on_sheet(bench, sheet, |n, sheet| {
        sheet.map[..n].copy_from_slice(&identity(n));
        0
    })
}

// ---- points --------------------------------------------------------------------

/// Stores the sheet's 64 bytes under the name: in the place that holds it, else
/// in the first free one.
pub fn set_point(bench: &Bench, sheet: usize, name: Name) -> (u32, Bench) {
    on_sheet(bench, sheet, |_, sheet| {
        let place = sheet.place_of(name).unwrap_or(sheet.count);
        if place == 8 {
            return 16;
        }
        sheet.points[place] = Point { name, map: sheet.map };
        sheet.count = sheet.count.max(place + 1);
        0
    })
}

/// The sheet's map becomes the point's; the point and the tally stay.
pub fn return_to(bench: &Bench, sheet: usize, name: Name) -> (u32, Bench) {
    on_sheet(bench, sheet, |n, sheet| {
        let Some(place) = sheet.place_of(name) else {
            return 15;
        };
        sheet.map[..n].copy_from_slice(&sheet.points[place].map[..n]);
        0
    })
}

/// The last point moves into the place that is freed.
pub fn forget(bench: &Bench, sheet: usize, name: Name) -> (u32, Bench) {
    on_sheet(bench, sheet, |_, sheet| {
        let Some(place) = sheet.place_of(name) else {
            return 15;
        };
        sheet.count -= 1;
        sheet.points[place] = sheet.points[sheet.count];
        0
    })
}

// ---- conversions ---------------------------------------------------------------

/// 1 and 8 of an old bench, which are tested as Clear tests them.
fn old_refused(n: usize, maps: &Maps) -> Option<u32> {
    if !is_size(n) {
        Some(1)
    } else if !maps.iter().all(|map| is_map(n, &map[..n])) {
        Some(8)
    } else {
        None
    }
}

/// The old bench with its tally and its maps intact; refused, one of zeros.
pub fn convert_v1(old: &BenchV1) -> (u32, BenchV2) {
    match old_refused(old.n, &old.maps) {
        Some(number) => (number, BenchV2::zeros()),
        None => (0, BenchV2 { n: old.n, maps: old.maps, tally: u64::from(old.tally) }),
    }
}

/// The same for the second kind, and no points.
pub fn convert_v2(old: &BenchV2) -> (u32, BenchV3) {
    match old_refused(old.n, &old.maps) {
        Some(number) => (number, BenchV3::zeros()),
        None => (0, BenchV3 { n: old.n, sheets: old.maps.map(SheetV3::bare), tally: old.tally }),
    }
}

/// The third kind: maps and points stay, and the total is what was tallied
/// earlier.
pub fn convert_v3(old: &BenchV3) -> (u32, Bench) {
    let made = Bench { n: old.n, sheets: old.sheets.map(Sheet::begun), earlier: old.tally };
    if !is_size(old.n) {
        (1, Bench::zeros())
    } else if !made.is_faultless() {
        (8, Bench::zeros())
    } else {
        (0, made)
    }
}
