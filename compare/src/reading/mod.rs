//! The rules of the bench engine, written from its documents alone.
//!
//! It is written to be read beside the documents, rule by rule. Each part names the page that it
//! follows; [`packing`] is less independent than the rest, and says so.

pub mod bench;
pub mod drive;
pub mod exchange;
pub mod host;
pub mod instruction;
pub mod machine;
pub mod module;
pub mod packing;
pub mod refusal;
