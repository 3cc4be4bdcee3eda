//! A second implementation of the scope, written from its words alone (today docs/SCOPE.md has them), a generator of cases, and the
//! comparison of the two implementations.

pub mod data;
pub mod generate;
pub mod second;
