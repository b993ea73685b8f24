//! Two implementations of the rules of the bench engine, put beside each other.
//!
//! [`reading`] is one that was written from the documents alone.

pub mod reading;
