//! The log of a cluster in etcd, from 3.4 on: a client of it, and how a node connects by TLS.
//!
//! docs/CLUSTER.md of the repository has how three machines are set up, and what their operator does at a fault.
mod engine;
#[doc(hidden)] // (for the examples)
pub mod grpc;
mod operate;
mod tls;
#[doc(hidden)]
pub mod wire;

pub use engine::Etcd;
pub use operate::{Member, Unanswered};
pub use tls::{tls, Files, Tls, TlsFault};
