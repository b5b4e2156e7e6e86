// The errors of a call.

use std::fmt;

/// Where the error of a text is.
#[derive(Clone, Copy, Debug, PartialEq, Eq)]
pub enum Place {
    /// The index of a byte.
    Byte(usize),
    /// The index of a line, from 0.
    Line(usize),
}

/// Why there is no result.
#[derive(Clone, Debug, PartialEq, Eq)]
#[non_exhaustive]
pub enum Error {
    /// A text has an error.
    Text {
        /// The message, the path with the line and the column, and notes, in lines. `Display` shows it.
        report: String,
        /// The place in the text, if the call gives one: [`Shader::build`](crate::Shader::build) names it in the report only.
        place: Option<Place>,
    },
    /// Out of memory. The call has freed what it allocated.
    OutOfMemory,
    /// The library returned a status that this crate doesn't know, as a library of another version may.
    Status(u32),
}

impl fmt::Display for Error {
    fn fmt(&self, to: &mut fmt::Formatter<'_>) -> fmt::Result {
        match self {
            Error::Text { report, .. } => to.write_str(report.trim_end()),
            Error::OutOfMemory => to.write_str("out of memory"),
            Error::Status(status) => write!(to, "unknown status {status} of the library"),
        }
    }
}

impl std::error::Error for Error {}
