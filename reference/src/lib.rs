//! An independent plain implementation of the ledger node, written from the papers alone,
//! against which the verified node is compared.

#![forbid(unsafe_code)]

pub mod calls;
pub mod generate;
pub mod node;
pub mod random;
pub mod script;
pub mod sha256;
pub mod snapshot;
pub mod totals;
pub mod wire;
