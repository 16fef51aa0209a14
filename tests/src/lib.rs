//! Comparisons of the product with an independent reference implementation.

pub mod algebras;
pub mod random;
pub mod reference;
pub mod report;
