//! Why a call fails.
use std::fmt;

use crate::{raw, Engine};

/// One of the files of an engine.
#[derive(Clone, Copy, Debug, PartialEq, Eq)]
pub enum File {
    /// The schema.
    Schema,
    /// The policies.
    Policies,
    /// The links.
    Links,
    /// The entities.
    Entities,
}

/// Why a file is refused.
#[derive(Clone, Debug, PartialEq, Eq)]
#[non_exhaustive]
pub struct Refusal {
    /// The file.
    pub file: File,
    /// The number of docs/REFUSALS.md.
    pub number: u32,
    /// Where the fault is, in bytes from 0, if the file has a place.
    pub offset: Option<u64>,
    /// The line of the fault, from 1, if the file has a place.
    pub line: Option<u64>,
    /// The explanation for people, as the program prints it.
    pub words: String,
}

/// The faults of policies.
#[derive(Clone, Debug, PartialEq, Eq)]
#[non_exhaustive]
pub struct Faults {
    /// The report, as `cedar validate` prints it.
    pub report: String,
    /// The explanation for people, as the program prints it.
    pub words: String,
}

/// Why a request is refused.
#[derive(Clone, Debug)]
#[non_exhaustive]
pub struct RequestRefusal {
    /// The number of docs/REFUSALS.md.
    pub number: u32,
    pub(crate) engine: Engine,
    pub(crate) parts: [String; 7],
}

impl RequestRefusal {
    /// The explanation for people, as the program prints it. It is made when it is asked for, since it may take a thousand times as long as
    /// a decision. It is empty where the engine is closed, where memory runs out, or where other files have been published by which the
    /// request is not refused with this number.
    pub fn words(&self) -> String {
        self.engine.words_of(self).unwrap_or_default()
    }
}

impl PartialEq for RequestRefusal {
    fn eq(&self, other: &RequestRefusal) -> bool {
        self.number == other.number && self.parts == other.parts
    }
}

impl Eq for RequestRefusal {}

/// Why a call fails. It is never a decision.
#[derive(Clone, Debug, PartialEq, Eq)]
#[non_exhaustive]
pub enum Error {
    /// Out of memory, or of threads. Nothing has changed.
    Memory,
    /// A file is refused. Nothing has changed.
    Refused(Box<Refusal>),
    /// The policies have faults. Nothing has changed.
    Faults(Box<Faults>),
    /// The request is refused, so nothing was decided.
    Request(Box<RequestRefusal>),
    /// The engine was closed.
    Closed,
    /// The library does not fit this crate: the status that it returned, or its version of the interface.
    Library(u32),
}

impl Error {
    /// The error of a status that needs no further words.
    pub(crate) fn of(status: u32) -> Error {
        match status {
            raw::MEMORY => Error::Memory,
            raw::CLOSED => Error::Closed,
            other => Error::Library(other),
        }
    }
}

impl fmt::Display for Error {
    fn fmt(&self, to: &mut fmt::Formatter<'_>) -> fmt::Result {
        match self {
            Error::Memory => to.write_str("out of memory"),
            Error::Refused(refusal) => to.write_str(refusal.words.trim_end()),
            Error::Faults(faults) => to.write_str(faults.words.trim_end()),
            Error::Request(refusal) => match refusal.words().trim_end() {
                "" => write!(to, "the request is refused: {}", refusal.number),
                words => to.write_str(words),
            },
            Error::Closed => to.write_str("the engine is closed"),
            Error::Library(status) => write!(to, "the library does not fit this crate: status {status}, {}", raw::status_text(*status)),
        }
    }
}

impl std::error::Error for Error {}
