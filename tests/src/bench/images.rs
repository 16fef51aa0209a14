//! Benches as images, of today's kind and of the three old ones (tests/PROBE.md).

use outside_tests::reference::bench::{Bench, BenchV1, BenchV2, BenchV3, Maps, Point, Sheet};

/// The bytes of a bench's image, and of the old kinds'.
pub const IMAGE: usize = 5201;
pub const IMAGE_V3: usize = 5137;
pub const IMAGE_V2: usize = 521;
pub const IMAGE_V1: usize = 517;

/// Where the tallies begin, `earlier`, and the points of the first sheet; the
/// bytes of each sheet's points, and of one place.
const TALLIES_AT: usize = 513;
const EARLIER_AT: usize = 577;
const POINTS_AT: usize = 585;
const POINTS: usize = 577;
const PLACE: usize = 72;

pub trait Image: std::fmt::Debug {
    fn image(&self) -> Vec<u8>;
}

fn front(maps: &Maps, n: usize, tally: &[u8]) -> Vec<u8> {
    [maps.as_flattened(), &[n as u8], tally].concat()
}

impl Image for BenchV1 {
    fn image(&self) -> Vec<u8> {
        front(&self.maps, self.n, &self.tally.to_le_bytes())
    }
}

impl Image for BenchV2 {
    fn image(&self) -> Vec<u8> {
        front(&self.maps, self.n, &self.tally.to_le_bytes())
    }
}

fn put_points(bytes: &mut Vec<u8>, count: usize, places: &[Point; 8]) {
    bytes.push(count as u8);
    for point in places {
        bytes.extend_from_slice(&point.name);
        bytes.extend_from_slice(&point.map);
    }
}

impl Image for BenchV3 {
    fn image(&self) -> Vec<u8> {
        let mut bytes = front(&self.maps(), self.n, &self.tally.to_le_bytes());
        self.sheets.iter().for_each(|sheet| put_points(&mut bytes, sheet.count, &sheet.points));
        bytes
    }
}

impl Image for Bench {
    fn image(&self) -> Vec<u8> {
        let tallies = self.sheets.map(|sheet| sheet.tally.to_le_bytes());
        let mut bytes = front(&self.maps(), self.n, tallies.as_flattened());
        bytes.extend(self.earlier.to_le_bytes());
        self.sheets.iter().for_each(|sheet| put_points(&mut bytes, sheet.count, &sheet.points));
        bytes
    }
}

fn number_at(image: &[u8], place: usize) -> u64 {
    u64::from_le_bytes(image[place..][..8].try_into().unwrap())
}

/// The bench that an image shows.
pub fn bench_in(image: &[u8]) -> Bench {
    let sheet = |k: usize| {
        let (count, places) = image[POINTS_AT + k * POINTS..][..POINTS].split_first().unwrap();
        Sheet {
            map: image[64 * k..][..64].try_into().unwrap(),
            tally: number_at(image, TALLIES_AT + 8 * k),
            count: *count as usize,
            points: std::array::from_fn(|place| point_in(&places[PLACE * place..][..PLACE])),
        }
    };
    Bench {
        n: image[512] as usize,
        sheets: std::array::from_fn(sheet),
        earlier: number_at(image, EARLIER_AT),
    }
}

fn point_in(place: &[u8]) -> Point {
    let (name, map) = place.split_at(8);
    Point { name: name.try_into().unwrap(), map: map.try_into().unwrap() }
}

/// An image with some stretches of its bytes replaced.
pub fn changed(image: &[u8], changes: &[(usize, &[u8])]) -> Vec<u8> {
    let mut made = image.to_vec();
    for (place, bytes) in changes {
        made[*place..][..bytes.len()].copy_from_slice(bytes);
    }
    made
}
