//! Stands in for the Rust's `display`: text only, which no comparison looks at.
use core::fmt;

pub const DISPLAY_MAX_MEMBERS: usize = 8;
pub struct Dims<'a>(pub &'a [u32]);
pub struct EscapedName<'a>(pub &'a str);
pub struct QuotedBytes<'a>(pub &'a [u8]);

impl fmt::Display for Dims<'_> {
    fn fmt(&self, f: &mut fmt::Formatter<'_>) -> fmt::Result {
        write!(f, "{:?}", self.0)
    }
}

impl fmt::Display for EscapedName<'_> {
    fn fmt(&self, f: &mut fmt::Formatter<'_>) -> fmt::Result {
        write!(f, "{:?}", self.0)
    }
}

impl fmt::Display for QuotedBytes<'_> {
    fn fmt(&self, f: &mut fmt::Formatter<'_>) -> fmt::Result {
        write!(f, "{:?}", self.0)
    }
}

pub fn write_elided(f: &mut fmt::Formatter<'_>, n: usize) -> fmt::Result {
    write!(f, " and {n} more")
}
