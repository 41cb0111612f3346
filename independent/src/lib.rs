//! An implementation that shares no code with the proved library, and that the proved library is
//! compared with.
//!
//! A proof says that code meets its specification; it cannot say that the specification is the
//! right one. So the same functions stand here a second time, written from the standards alone in
//! another language, and the tests hold one to the other: a misreading would have to be made twice,
//! in the same way, to pass.
//!
//! Nothing here is proved. It has no dependency but the standard library, and it must never call
//! the proved library or be derived from it, or the comparison would say nothing.
//!
//! It has SHA-512, the hashes that Roughtime makes of it and the Merkle tree, a reader of packets,
//! requests and responses, the check of a response, the writer of a request, the texts that are
//! signed, the writer of a response with its delegation and of the answers to a whole batch, the
//! lookup of a server, lists of servers as JSON, read and written, piles of responses and the
//! reports that are made of them, also as JSON, the measuring walk, the clock that tells the time
//! though servers lie, the timestamps of an old draft, and Ed25519, by which responses and piles
//! are judged with no answers beside them. Beside all this stands what it is tried with: what makes
//! piles and signatures, courses of time, and a server that answers batches.

#![forbid(unsafe_code)]
#![warn(missing_docs)]

pub mod address;
pub mod appendix;
pub mod base64;
pub mod batch;
pub mod check;
pub mod clock;
pub mod course;
pub mod ed25519;
pub mod edwards;
pub mod halves;
pub mod hash;
pub mod json;
pub mod lengthy;
pub mod lengthy_lists;
pub mod list_text;
pub mod list_writing;
pub mod making;
pub mod message;
pub mod number;
pub mod packet;
pub mod pairs;
pub mod pieces;
pub mod pile;
pub mod place;
pub mod refusal;
pub mod report;
pub mod report_text;
pub mod request;
pub mod respond;
pub mod response;
pub mod server;
pub mod servers;
// Its own, but where benchmarks/peer compiles these files over RustCrypto's, to time both.
#[cfg_attr(feature = "sha2", path = "../../benchmarks/peer/sha512.rs")]
pub mod sha512;
pub mod signed;
pub mod signing;
pub mod stamp;
pub mod tag;
pub mod text;
pub mod tree;
pub mod utf8;
pub mod value;
pub mod verdict;
pub mod walk;
pub mod write;

/// The version of Roughtime that draft 19 describes, and the only one that is known here.
pub const VERSION: u32 = 1;
