//! A reference implementation of document 01 and of document 02's first five
//! requests, written from these alone and for plainness: every service, twice
//! where a definition can be searched.
//!
//! - `map`: maps, pairs and their order
//! - `algebra`: tables, reasons 1 to 6, "is a congruence"
//! - `brute`: every notion by its definition, searching all maps over n
//! - `plain`: the same notions in polynomial time, for n up to 64
//! - `service`: the services with their refusals and lent bytes
//! - `bench`: the eight sheets with their tallies and points, and old benches' conversions
//! - `text`: algebra texts, their reader and their writer
//! - `desk`: the text of the desk program

pub mod algebra;
pub mod bench;
pub mod brute;
pub mod desk;
pub mod map;
pub mod plain;
pub mod service;
pub mod text;

use algebra::Algebra;
use map::Map;

/// The notions that the services are made of, for one accepted algebra.
pub trait Engine {
    fn new(algebra: &Algebra) -> Self;
    /// The least congruence that holds the pairs.
    fn least(&self, pairs: &[(usize, usize)]) -> Map;
    /// The greatest congruence inside a map.
    fn greatest_inside(&self, map: &[u8]) -> Map;
    /// The earliest congruence that holds v and w apart.
    fn separate(&self, v: usize, w: usize) -> Map;
    /// The first pair that all congruences but the identity hold.
    fn common_pair(&self) -> Option<(usize, usize)>;
    /// Whether the map is a congruence.
    fn respects(&self, map: &[u8]) -> bool;
    /// Whether a congruence holds a pair apart that every strictly larger one joins.
    fn is_maximal_for_a_pair(&self, map: &[u8]) -> bool;
    /// The least map that holds what a holds and what b holds.
    fn join(&self, a: &[u8], b: &[u8]) -> Map;
    /// The map that holds what both hold.
    fn meet(&self, a: &[u8], b: &[u8]) -> Map;
    /// The quotient's tables by a congruence, and the number of blocks.
    fn quotient(&self, map: &[u8]) -> (Vec<u8>, usize);
}
