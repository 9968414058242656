//! Tests of Crankforest's static library from Rust. "01" is the paper "What is wanted and its exact rules".
//!
//! | Module | What it holds |
//! |---|---|
//! | `library` | the C entries, and safe functions over them |
//! | `plain` | the same analysis in plain Rust, to compare with |
//! | `plain_text` | the text form and the pair program's output in plain Rust |
//! | `all_delays` | the second program's means: it tries all delays |
//! | `claims` | the entry that judges claims, and the same in plain Rust |
//! | `small_graphs` | the second program's inputs |
//! | `graphs`, `texts` | the tests' inputs |
//! | `random` | numbers from a seed |
//! | `programs` | programs run as processes |
//!
//! `all_delays` shares nothing with `plain` and nothing with the analyser.

pub mod all_delays;
pub mod claims;
pub mod graphs;
pub mod library;
pub mod plain;
pub mod plain_text;
pub mod programs;
pub mod random;
pub mod small_graphs;
pub mod texts;
