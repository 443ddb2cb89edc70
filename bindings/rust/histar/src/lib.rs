//! A proved label kernel: HiStar's object model (OSDI 2006) in the program that links it.
//!
//! The kernel decides which thread may read and write what, by labels. That each call follows the rules of docs/CALLS.md
//! is proved of the code that this crate links; the crate itself is ordinary Rust, with all unsafe code in one file.
//!
//! ```
//! use histar::{label, Entry, Kernel, Object, Refusal, Refused};
//!
//! let kernel = Kernel::boot(64)?;
//! let boot = kernel.session();
//! let (c, guests) = (boot.cat_create()?, boot.cat_create()?);
//! let secret = Entry::in_root(boot.segment_create(Object::ROOT, &label! { c => L3; L1 }, 2, 1)?);
//! boot.segment_write(secret, 0, b"key")?;
//!
//! let guest = label! { guests => L2; L1 }; // it can't delete what is at 1
//! let stranger = boot.thread_create(Object::ROOT, &guest, 1, &label! { L2 }, 0)?;
//! assert_eq!(boot.segment_read(secret, 0, 3)?, b"key");
//! assert_eq!(stranger.segment_read(secret, 0, 3).unwrap_err().reason, Refusal::CannotObserve);
//! assert_eq!(stranger.unref(secret).unwrap_err().reason, Refusal::CannotModify);
//! # Ok::<(), Refused>(())
//! ```
//!
//! - [`Kernel`] opens a kernel, and [`Session`] makes the calls of one of its threads; [`Call`] is a call as a value, [`Reply`] its answer.
//! - [`Label`] and [`label!`] make labels of [`Level`]s; [`Object`], [`Category`] and [`Entry`] name what calls are about.
//! - [`Refused`] says which call was refused, and [`Refusal`] why.
//! - [`Seat`], [`View`] and [`Reader`] are of a kernel that threads share; [`trusted`] is for what decides who calls.
#![deny(rustdoc::broken_intra_doc_links)]

mod bytes;
mod call;
mod ids;
mod kept;
mod kernel;
mod label;
mod log;
#[allow(unsafe_code)] // the one file that has any
mod raw;
mod record;
mod records;
mod refusal;
mod reply;
mod session;
mod shared;
pub mod trusted;
mod words;

pub use bytes::Bytes;
pub use call::{Call, NewGate};
pub use ids::{Category, Entry, Object};
pub use kept::Order;
pub use kernel::Kernel;
pub use label::{Label, Level, ParseLabelError};
pub use log::Keep;
pub use refusal::{NoRefusal, Refusal, Refused};
pub use reply::{Entered, Listed, Own, Quota, Reply};
pub use session::{ObjectsIn, Session, StoredSession};
pub use shared::{Log, Note, Reader, Seat, View};
pub use words::{Kinds, Limits, Mapping, Rights};
