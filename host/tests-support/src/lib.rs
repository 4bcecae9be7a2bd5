//! What tests the STAR File reader from outside.
//!
//! [`reference`] is a plain reader of its own, written from the specification
//! alone, [`number`] its numbers and [`index`] its index beside the names;
//! [`generate`] makes files, tables, slots and numbers to compare the two on, and
//! [`notation`] prints them. Of the package
//! under test only the types that calls take and answer are used here.

#![forbid(unsafe_code)]
#![warn(missing_docs)]

pub mod generate;
pub mod index;
pub mod notation;
pub mod number;
pub mod reference;

/// The words of a row in each of the five tables.
pub const WIDTHS: [usize; 5] = [3, 3, 4, 3, 4];

/// The largest file and the largest plain form, in bytes.
pub const MOST_BYTES: usize = 1_048_576;

/// The longest name, its underscore counted, and the longest block or frame code,
/// in bytes.
pub const MOST_NAME_BYTES: usize = 75;

/// What that limit was before it was raised.
pub const OLD_NAME_BYTES: usize = 32;
