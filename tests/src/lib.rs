//! A second implementation of the analyser engine, its rules written from documents 01
//! and 02 alone, so that two readings of the same paper can be held against each other.
//!
//! `rules` is the arithmetic, `engine` the ten events, `file` the session file and the
//! program, `plan` a session file written in advance, `page` a page for the lab book,
//! `recorder` a chart recorder's words, `grounds` what a sample is over range by. `big`,
//! `exact` and `ledger` are the other side of demand 3: equation (11) in exact fractions and
//! the ledger that walks beside the engine. `random` and `sessions` invent lessons and plans,
//! `hostile` spoils one thing at a time, and `harness` compares an engine, a writer, a recorder
//! or a tool that names grounds with this one over many of them. `roundings` takes a sample's
//! roundings one by one, `store` keeps what the last search found, and `altered` and
//! `charts` have the texts of the programs of these names. `bench` holds the readings and the
//! maker's table that the papers give, and `worst` looks for the readings with the largest
//! errors. `drift` sets the old program's area beside ours, and `figures` writes numbers for
//! tables. `sources` reads the proved crates' own code, and `pace`, `instructions`, `archive`
//! and `trial` measure how fast it runs. With the feature of its name, `library` is the proved
//! library.

#![deny(unsafe_code)]

pub mod altered;
pub mod archive;
pub mod bench;
pub mod big;
pub mod charts;
pub mod drift;
pub mod engine;
pub mod exact;
pub mod figures;
pub mod file;
pub mod grounds;
pub mod harness;
pub mod hostile;
pub mod instructions;
pub mod ledger;
pub mod lesson;
#[cfg(feature = "library")]
pub mod library;
pub mod pace;
pub mod page;
pub mod plan;
pub mod random;
pub mod recorder;
pub mod roundings;
pub mod rules;
pub mod sessions;
pub mod sources;
pub mod store;
pub mod trial;
pub mod worst;
