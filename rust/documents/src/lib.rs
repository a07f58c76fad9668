//! What the documents say of the crates, held to what the crates have.
//!
//! [`citations`] finds what a document cites, [`repository`] looks for it. The tests do both for
//! every document.

#![forbid(unsafe_code)]
#![warn(missing_docs)]

pub mod citations;
pub mod repository;
