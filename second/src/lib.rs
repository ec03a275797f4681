//! A second implementation of documents 01 and 02, on trees and plain sets, for clarity. It was
//! written from these and the figures of document 004, to be read beside them; the proved library
//! is compared with it.
//!
//! Signal sets and label sets are numbers, bit n for number n, as document 01 has them.

// the second implementation
pub mod codes;
pub mod list;
pub mod react;
pub mod report;
pub mod statement;
pub mod step;
pub mod table;
pub mod text;
pub mod trim;

// beside it: what the tests and the benchmark need
pub mod library;
pub mod met;
pub mod plain;
pub mod plain_text;
pub mod random;
pub mod texts;
pub mod trees;
