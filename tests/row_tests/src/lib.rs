//! Tests of `run` of `wast_rows`: the lines of trees that no text has, failing streams, and a
//! segment of four gibibytes.
//!
//! `tree_tests` has the calls of `wast_core` and `wast_resolve`.

#[cfg(test)]
mod built;
#[cfg(test)]
mod streams;
