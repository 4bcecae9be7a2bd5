//! The verified STAR File reader for Rust callers.
//!
//! [`star`] holds safe wrappers around the C interface of [`raw`], which also has
//! its constants; [`index`] holds those of the calls for an index beside the names.
//!
//! ```
//! use tackturnel::{raw, star, Tables, TablesMut};
//!
//! let file = b"data_a _x 1";
//! let mut tables = star::room(file.len()).map(|words| vec![0; words]);
//! let reading = star::read(file, raw::STAR_LAYOUT_TODAY, TablesMut::of(&mut tables));
//! assert_eq!(reading.refusal, raw::STAR_OK);
//!
//! let (tables, counts) = (Tables::of(&tables), reading.counts());
//! let block = star::find_block(file, tables, counts, b"a").row;
//! let name = star::find_name(file, tables, counts, block, b"_x").row;
//! assert_eq!(star::value_part(file, tables, counts, name, 1), b"1");
//! assert_eq!(star::value_number(file, tables, counts, name, 1).value, 1.0);
//! ```

#![deny(unsafe_code)]
#![warn(missing_docs)]

#[allow(unsafe_code)]
pub mod index;
#[allow(unsafe_code)]
pub mod raw;
#[allow(unsafe_code)]
pub mod star;

pub use raw::{
    Checked, Compared, Counts, Found, Number, Part, Reading, Value, ValueNumber, Written,
};
pub use star::{Column, ColumnValue, NumberForm, Tables, TablesMut};
