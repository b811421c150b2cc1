//! Tests of what no text can show: calls on trees, names, texts and bytes, with enough memory.
//!
//! Each public call that may take memory succeeds here, unless a text of `wat_golden` shows it,
//! because contracts permit it to fail. How much is looked at is here too. `unit_tests` has a module without
//! a tree, and `call_tests` user-defined resolvers and visitors.
//!
//! # Modules
//!
//! - `base`: ids, errors, the id counter, lists and boxes.
//! - `ops`, `edges`, `instrs`: numbers, types and instructions as bytes. `sections`: each section of a module.
//! - `namespaces` and `labels`: many names. `ranges`: ranges of fields. `generated`: many generated ids.
//! - `conversions`, `filled`, `items`: parts of the tree as values of the binary format.
//! - `expand`: keys of signatures. `tree`: builders and accessors.
//! - `sizes`: how many bytes nodes, ids and tokens take.
//! - `texts`: bytes, names and errors of texts.

#[cfg(test)]
mod base;
#[cfg(test)]
mod conversions;
#[cfg(test)]
mod edges;
#[cfg(test)]
mod expand;
#[cfg(test)]
mod filled;
#[cfg(test)]
mod generated;
#[cfg(test)]
mod instrs;
#[cfg(test)]
mod items;
#[cfg(test)]
mod labels;
#[cfg(test)]
mod namespaces;
#[cfg(test)]
mod ops;
#[cfg(test)]
mod ranges;
#[cfg(test)]
mod sections;
#[cfg(test)]
mod sizes;
#[cfg(test)]
mod texts;
#[cfg(test)]
mod tree;
