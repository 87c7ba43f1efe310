#![doc = include_str!("../README.md")]
#![no_std]
#![deny(missing_docs, unsafe_op_in_unsafe_fn)]

#[cfg(not(all(target_arch = "x86_64", target_os = "linux")))]
compile_error!("the library is built for x86-64 Linux");

mod node;
pub mod plain;
mod refusal;

pub use node::{Marks, Node, Randoms, Reply, Room, SnapshotRoom, Total, ENDPOINTS};
pub use plain::{
    Refusal, DATA_LIMIT, LAST_READING, LEAST_HOUSEHOLD, LEAST_KEEP_ALIVE, MOST_BYTES,
    MOST_ENDPOINTS, MOST_HOUSEHOLD, MOST_KEEP_ALIVE, MOST_NODES, MOST_PEERS, PUBLISH_LIMIT,
    SNAPSHOT_BYTES, TABLE_BYTES, USUAL_INTERVAL,
};

/// The example in the README of the whole.
#[cfg(doctest)]
#[doc = include_str!("../../../README.md")]
struct Whole;
