//! Stands in for the Rust's `message_type`, which its error.rs names once.
use core::fmt;

#[derive(Debug, Clone, PartialEq, Eq)]
pub struct MessageType;

impl fmt::Display for MessageType {
    fn fmt(&self, f: &mut fmt::Formatter<'_>) -> fmt::Result {
        f.write_str("message")
    }
}
