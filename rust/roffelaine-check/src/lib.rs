//! What holds the library to the paper from outside.
//!
//! `model` is an independent implementation of the paper over plain slices, and
//! `flat` has its own layouts of what crosses to the archive: neither uses
//! the types of `roffelaine`. `engine` names what an engine must offer to be
//! compared, `archive` is the proved archive as one, `random` makes the cases,
//! `compare` makes one call on two engines and `differential` plans a whole
//! test. `library_types` says the model's values in the library's types.
//! `full_size` is a fund of the most components, and `timing` measures the rows
//! of the benchmark.
#![forbid(unsafe_code)]

pub mod archive;
pub mod compare;
pub mod differential;
pub mod engine;
pub mod flat;
pub mod full_size;
pub mod library_types;
pub mod model;
pub mod random;
pub mod timing;
