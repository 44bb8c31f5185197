//! Standard error. What cannot be written there has nowhere to be reported: the exit status still
//! speaks.

use std::fmt::Display;
use std::io::{Write, stderr};

use crate::text::visible;

/// A line of the command. What names of files hold cannot act on a terminal.
pub fn say(message: impl Display) {
    put(&format!("figures: {}\n", visible(&message.to_string())));
}

/// A text as it is.
pub fn put(text: &str) {
    let _ = stderr().write_all(text.as_bytes());
}
