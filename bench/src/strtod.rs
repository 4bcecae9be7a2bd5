//! C's own reader of floats.

use std::ffi::{c_char, c_double, CStr};

mod c {
    use super::{c_char, c_double};

    extern "C" {
        pub fn strtod(text: *const c_char, end: *mut *mut c_char) -> c_double;
    }
}

/// The float that a text begins with, and how many of its bytes that takes.
pub fn strtod(text: &CStr) -> (f64, usize) {
    let start = text.as_ptr();
    let mut end = start.cast_mut();
    // SAFETY: a byte 0 ends the text, and `end` is written alone.
    let value = unsafe { c::strtod(start, &mut end) };
    (value, end.addr() - start.addr())
}
