//! The calls of libcedar: all `unsafe` code of this crate but that of `stack.rs`.
#![allow(unsafe_code)]
use std::ffi::{c_char, c_void, CStr};
use std::ptr::{self, NonNull};

use crate::{Error, Faults, File, Files, Language, Refusal};

pub(crate) const OK: u32 = 0;
pub(crate) const MEMORY: u32 = 1;
pub(crate) const REFUSED: u32 = 2;
pub(crate) const FAULTS: u32 = 3;
pub(crate) const NO_REQUEST: u32 = 7;
pub(crate) const CLOSED: u32 = 8;
pub(crate) const MORE: u32 = 9;

/// `CEDAR_ANY_DECIMAL`.
const ANY_DECIMAL: u32 = 1;

/// `CEDAR_LANGUAGE_4`.
const LANGUAGE_4: u32 = 2;

/// `CEDAR_ALL_LINES`.
const ALL_LINES: u64 = u64::MAX;

/// `CEDAR_WANTS_WORDS`.
const WANTS_WORDS: u32 = 1;

/// `cedar_bytes`, which lend what they were made of.
#[repr(C)]
#[derive(Clone, Copy)]
pub(crate) struct Bytes {
    at: *const u8,
    length: usize,
}

impl From<&[u8]> for Bytes {
    fn from(text: &[u8]) -> Bytes {
        Bytes { at: text.as_ptr(), length: text.len() }
    }
}

impl Bytes {
    const NONE: Bytes = Bytes { at: ptr::null(), length: 0 };

    /// A copy as a text. The bytes are those of a refusal that is not freed yet.
    fn text(self) -> Result<String, Error> {
        if self.at.is_null() {
            return Ok(String::new());
        }
        // SAFETY: the library gives the length of its texts.
        let bytes = unsafe { std::slice::from_raw_parts(self.at, self.length) };
        crate::text_of(crate::copied(bytes)?)
    }
}

/// `cedar_buffer`.
#[repr(C)]
struct Buffer {
    at: *mut u8,
    room: usize,
    written: usize,
}

/// `cedar_files`.
#[repr(C)]
struct RawFiles {
    size: usize,
    texts: [Bytes; 4],
    settings: u32,
    reserved: u32,
}

impl From<&Files<'_>> for RawFiles {
    fn from(files: &Files) -> RawFiles {
        let texts = [files.schema, files.policies, files.links, files.entities].map(Bytes::from);
        let language = match files.language {
            Language::Profile => 0,
            Language::Cedar4 => LANGUAGE_4,
        };
        let settings = if files.any_decimal { ANY_DECIMAL } else { 0 } | language;
        RawFiles { size: std::mem::size_of::<RawFiles>(), texts, settings, reserved: 0 }
    }
}

/// `cedar_request`, whose parts are three types with their ids, and the context.
#[repr(C)]
struct RawRequest {
    size: usize,
    parts: [Bytes; 7],
}

impl From<&[&str; 7]> for RawRequest {
    fn from(parts: &[&str; 7]) -> RawRequest {
        RawRequest { size: std::mem::size_of::<RawRequest>(), parts: parts.map(|it| it.as_bytes().into()) }
    }
}

/// `cedar_decision`.
#[repr(C)]
pub(crate) struct Decided {
    size: usize,
    pub(crate) allow: u32,
    pub(crate) refused: u32,
}

/// `cedar_report_place`.
#[repr(C)]
#[derive(Clone, Debug)]
pub(crate) struct Place {
    size: usize,
    pub(crate) policies: u64,
    pub(crate) faults: u64,
    pub(crate) warnings: u64,
    lines: u64,
}

impl Place {
    /// The beginning of a report of so many lines at most, and of the totals.
    pub(crate) fn first(lines: Option<u64>) -> Place {
        Place { size: std::mem::size_of::<Place>(), policies: 0, faults: 0, warnings: 0, lines: lines.unwrap_or(ALL_LINES) }
    }
}

/// `cedar_refusal`, which owns its texts.
#[repr(C)]
pub(crate) struct Why {
    size: usize,
    file: u32,
    number: u32,
    offset: u64,
    wants: u32,
    reserved: u32,
    line: u64,
    text: Bytes,
    words: Bytes,
}

impl Why {
    /// Room for a refusal and its words.
    pub(crate) fn new() -> Why {
        let (size, none) = (std::mem::size_of::<Why>(), Bytes::NONE);
        Why { size, file: 0, number: 0, offset: 0, wants: WANTS_WORDS, reserved: 0, line: 0, text: none, words: none }
    }

    /// What a call has done that returned this status.
    pub(crate) fn done(&self, status: u32) -> Result<(), Error> {
        match status {
            OK => Ok(()),
            REFUSED => Err(Error::Refused(Box::new(self.refusal()?))),
            FAULTS => Err(Error::Faults(Box::new(Faults { report: self.text.text()?, words: self.words.text()? }))),
            other => Err(Error::of(other)),
        }
    }

    fn refusal(&self) -> Result<Refusal, Error> {
        let file = match self.file {
            1 => File::Schema,
            2 => File::Policies,
            3 => File::Links,
            _ => File::Entities,
        };
        let (offset, line) = ((self.offset != u64::MAX).then_some(self.offset), (self.line != 0).then_some(self.line));
        Ok(Refusal { file, number: self.number, offset, line, words: self.words.text()? })
    }
}

impl Drop for Why {
    fn drop(&mut self) {
        // SAFETY: the texts are null or those of the library, which sets them to null.
        unsafe { cedar_refusal_free(self) }
    }
}

extern "C" {
    fn cedar_abi_version() -> u32;
    fn cedar_version(text: *mut Buffer) -> u32;
    fn cedar_status_text(status: u32) -> *const c_char;
    fn cedar_refusal_free(why: *mut Why);
    fn cedar_validate_files(files: *const RawFiles, why: *mut Why, text: *mut Buffer) -> u32;
    fn cedar_validate_part(files: *const RawFiles, place: *mut Place, why: *mut Why, text: *mut Buffer) -> u32;
    fn cedar_explain(files: *const RawFiles, format: u32, text: *mut Buffer) -> u32;
    fn cedar_shared_new(shared: *mut *mut c_void) -> u32;
    fn cedar_shared_retain(shared: *mut c_void);
    fn cedar_shared_free(shared: *mut c_void);
    fn cedar_shared_close(shared: *mut c_void);
    fn cedar_shared_publish(shared: *mut c_void, files: *const RawFiles, why: *mut Why, text: *mut Buffer) -> u32;
    fn cedar_shared_publish_entities(shared: *mut c_void, entities: Bytes, why: *mut Why, text: *mut Buffer) -> u32;
    fn cedar_shared_publish_changes(shared: *mut c_void, changes: Bytes, why: *mut Why, text: *mut Buffer) -> u32;
    fn cedar_shared_with_changes(shared: *mut c_void, changes: Bytes, other: *mut *mut c_void, why: *mut Why, text: *mut Buffer) -> u32;
    fn cedar_shared_kept_changes(shared: *mut c_void, count: *mut u64) -> u32;
    fn cedar_shared_decide(shared: *mut c_void, request: *const RawRequest, decided: *mut Decided, text: *mut Buffer) -> u32;
    fn cedar_shared_answer(shared: *mut c_void, lines: Bytes, text: *mut Buffer) -> u32;
    fn cedar_shared_answer_with_entities(shared: *mut c_void, lines: Bytes, text: *mut Buffer) -> u32;
    fn cedar_shared_answer_line(shared: *mut c_void, line: Bytes, text: *mut Buffer) -> u32;
    fn cedar_shared_explain_line(shared: *mut c_void, line: Bytes, kind: u32, number: u32, format: u32, text: *mut Buffer) -> u32;
    fn cedar_shared_explain_request(shared: *mut c_void, request: *const RawRequest, number: u32, format: u32, text: *mut Buffer) -> u32;
}

/// Makes a call that writes a text, in a buffer that grows until the text fits. The buffer has no length, and room as its capacity.
fn grown(text: &mut Vec<u8>, mut call: impl FnMut(*mut Buffer) -> u32) -> u32 {
    loop {
        let mut buffer = Buffer { at: text.as_mut_ptr(), room: text.capacity(), written: 0 };
        let status = call(&mut buffer);
        if buffer.written <= text.capacity() {
            // SAFETY: the library has written so many bytes to the front of the buffer.
            unsafe { text.set_len(buffer.written) };
            return status;
        }
        if text.try_reserve_exact(buffer.written).is_err() {
            return MEMORY;
        }
    }
}

/// What is asked with lines.
#[derive(Clone, Copy)]
pub(crate) enum Asks {
    /// One line.
    Line,
    /// Lines.
    Lines,
    /// Lines that may bring entities.
    LinesWithEntities,
}

/// An owner of a `cedar_shared`. Clones own the same one.
pub(crate) struct Shared(NonNull<c_void>);

// SAFETY: any number of threads may make the calls of a shared engine, and each may free what it owns.
unsafe impl Send for Shared {}
// SAFETY: as above.
unsafe impl Sync for Shared {}

impl Clone for Shared {
    fn clone(&self) -> Shared {
        // SAFETY: this owner is alive.
        unsafe { cedar_shared_retain(self.0.as_ptr()) };
        Shared(self.0)
    }
}

impl Drop for Shared {
    fn drop(&mut self) {
        // SAFETY: this owner is alive, and nothing uses it from here on.
        unsafe { cedar_shared_free(self.0.as_ptr()) }
    }
}

impl Shared {
    /// An engine to which nothing was published.
    pub(crate) fn new() -> Result<Shared, Error> {
        let mut at = ptr::null_mut();
        // SAFETY: the address is that of a local variable.
        let status = unsafe { cedar_shared_new(&mut at) };
        NonNull::new(at).map(Shared).ok_or_else(|| Error::of(status))
    }

    // SAFETY of the calls below: the owner is alive, each address is that of a value which lives as long as the call, and the lengths are
    // those of the slices.

    pub(crate) fn publish(&self, files: &Files, why: &mut Why) -> u32 {
        unsafe { cedar_shared_publish(self.0.as_ptr(), &files.into(), why, ptr::null_mut()) }
    }

    pub(crate) fn publish_entities(&self, entities: &[u8], why: &mut Why) -> u32 {
        unsafe { cedar_shared_publish_entities(self.0.as_ptr(), entities.into(), why, ptr::null_mut()) }
    }

    pub(crate) fn publish_changes(&self, changes: &[u8], why: &mut Why) -> u32 {
        unsafe { cedar_shared_publish_changes(self.0.as_ptr(), changes.into(), why, ptr::null_mut()) }
    }

    /// Another engine over changed entities; none with another status than `OK`.
    pub(crate) fn with_changes(&self, changes: &[u8], why: &mut Why) -> (u32, Option<Shared>) {
        let mut at = ptr::null_mut();
        let status = unsafe { cedar_shared_with_changes(self.0.as_ptr(), changes.into(), &mut at, why, ptr::null_mut()) };
        (status, NonNull::new(at).map(Shared))
    }

    /// How many changes of entities are kept; 0 with another status than `OK`.
    pub(crate) fn kept_changes(&self) -> (u32, u64) {
        let mut count = 0;
        let status = unsafe { cedar_shared_kept_changes(self.0.as_ptr(), &mut count) };
        (status, count)
    }

    /// Decides the request of these parts. A text without room is not written.
    pub(crate) fn decide(&self, parts: &[&str; 7], text: &mut Vec<u8>) -> (u32, Decided) {
        let (request, mut decided) = (parts.into(), Decided { size: std::mem::size_of::<Decided>(), allow: 0, refused: 0 });
        let status = grown(text, |to| unsafe { cedar_shared_decide(self.0.as_ptr(), &request, &mut decided, to) });
        (status, decided)
    }

    pub(crate) fn explain_request(&self, parts: &[&str; 7], number: u32, text: &mut Vec<u8>) -> u32 {
        let request = parts.into();
        grown(text, |to| unsafe { cedar_shared_explain_request(self.0.as_ptr(), &request, number, 0, to) })
    }

    pub(crate) fn explain_line(&self, line: &[u8], may_bring_entities: bool, text: &mut Vec<u8>) -> u32 {
        let kind = may_bring_entities.into();
        grown(text, |to| unsafe { cedar_shared_explain_line(self.0.as_ptr(), line.into(), kind, 0, 0, to) })
    }

    pub(crate) fn answer(&self, asks: Asks, lines: &[u8], text: &mut Vec<u8>) -> u32 {
        let call = match asks {
            Asks::Line => cedar_shared_answer_line,
            Asks::Lines => cedar_shared_answer,
            Asks::LinesWithEntities => cedar_shared_answer_with_entities,
        };
        grown(text, |to| unsafe { call(self.0.as_ptr(), lines.into(), to) })
    }

    pub(crate) fn close(&self) {
        unsafe { cedar_shared_close(self.0.as_ptr()) }
    }
}

/// Validates the policies of files.
pub(crate) fn validate(files: &Files, why: &mut Why, text: &mut Vec<u8>) -> u32 {
    let files = files.into();
    // SAFETY: as for the calls of `Shared`. What an earlier turn has said is freed.
    grown(text, |to| unsafe {
        cedar_refusal_free(why);
        cedar_validate_files(&files, why, to)
    })
}

/// Writes the next part of the report on the policies of files, and moves the place on.
pub(crate) fn validate_part(files: &Files, place: &mut Place, why: &mut Why, text: &mut Vec<u8>) -> u32 {
    let files = files.into();
    // SAFETY: as for `validate`.
    grown(text, |to| unsafe {
        cedar_refusal_free(why);
        cedar_validate_part(&files, place, why, to)
    })
}

/// Explains in words why files are refused or have faults.
pub(crate) fn explain(files: &Files, text: &mut Vec<u8>) -> u32 {
    let files = files.into();
    // SAFETY: as for the calls of `Shared`.
    grown(text, |to| unsafe { cedar_explain(&files, 0, to) })
}

/// The version of the interface of the library.
pub(crate) fn abi_version() -> u32 {
    // SAFETY: the call takes nothing.
    unsafe { cedar_abi_version() }
}

/// Writes the version of the engine.
pub(crate) fn version(text: &mut Vec<u8>) -> u32 {
    // SAFETY: as for the calls of `Shared`.
    grown(text, |to| unsafe { cedar_version(to) })
}

/// What a status means, in words.
pub(crate) fn status_text(status: u32) -> &'static str {
    // SAFETY: the library gives the address of a text that ends with a byte 0, and never frees it.
    unsafe { CStr::from_ptr(cedar_status_text(status)) }.to_str().unwrap_or("")
}
