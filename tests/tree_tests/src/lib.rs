//! Tests of `wast_core` and `wast_resolve` on what no text shows: failed allocations, ids that differ
//! in their names alone, and calls beside `encode_text` of `wat_bytes`.
//!
//! What a text shows is a line of `wat_golden`. `row_tests` has trees that no text has, and
//! `call_tests` the calls that check a module first.

#[cfg(test)]
mod calls;
#[cfg(test)]
mod made;
#[cfg(test)]
mod refused;
#[cfg(test)]
mod twins;
