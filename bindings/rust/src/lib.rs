//! Authorization according to policies of the Cedar language, over the proved engine libcedar.
//!
//! ```no_run
//! use bobbinjade::{Decision, Engine, Files, Request, Uid};
//!
//! # fn main() -> Result<(), Box<dyn std::error::Error>> {
//! let (schema, policies, entities) = (std::fs::read("schema.json")?, std::fs::read("policies.cedar")?, std::fs::read("entities.json")?);
//! let engine = Engine::new(&Files { schema: &schema, policies: &policies, entities: &entities, ..Files::default() })?;
//! let request = Request::new(Uid::new("User", "ann"), Uid::new("Action", "write"), Uid::new("Notebook", "plans"));
//! assert_eq!(engine.decide(&request)?, Decision::Allow);
//! # Ok(())
//! # }
//! ```
//!
//! An [`Engine`] is `Send`, `Sync` and `Clone`: all clones are one engine. A request takes no lock, and [`Engine::publish`] swaps the
//! files while requests run, [`Engine::publish_entities`] the entities alone, and [`Engine::publish_changes`] changes some of them. Each
//! answer is that of files that were current during its call.
//!
//! All `unsafe` code is in `src/raw.rs` and `src/stack.rs`.
#![deny(missing_docs, unsafe_code)]

mod answer;
mod error;
mod parts;
mod raw;
mod stack;

use std::borrow::Cow;

pub use error::{Error, Faults, File, Refusal, RequestRefusal};
pub use parts::{validate_parts, ReportParts};
use raw::{Asks, Shared, Why};
use stack::on_enough_stack;

/// The version of the interface that this crate is written for.
const ABI_VERSION: u32 = 1;

/// A language of schemas and policies.
#[derive(Clone, Copy, Debug, Default, PartialEq, Eq, Hash)]
#[non_exhaustive]
pub enum Language {
    /// The default language, with the number 3.
    #[default]
    Profile,
    /// The language of Cedar 4, with the number 4.
    Cedar4,
}

impl Language {
    /// The language of a number; `None` where it is neither 3 nor 4.
    pub fn numbered(number: u32) -> Option<Language> {
        match number {
            3 => Some(Language::Profile),
            4 => Some(Language::Cedar4),
            _ => None,
        }
    }
}

/// The contents of the files of an engine.
#[derive(Clone, Copy, Debug, Default)]
pub struct Files<'f> {
    /// The schema, as JSON.
    pub schema: &'f [u8],
    /// The policies.
    pub policies: &'f [u8],
    /// The links of templates, as JSON; empty where there is no such file.
    pub links: &'f [u8],
    /// The entities, as JSON.
    pub entities: &'f [u8],
    /// Whether `decimal(..)` accepts any string. It may then fail when a request is answered.
    pub any_decimal: bool,
    /// The language of the schema and the policies.
    pub language: Language,
}

/// The name of an entity: a type such as `Shop::User`, and an id without quotes.
#[derive(Clone, Copy, Debug, PartialEq, Eq, Hash)]
pub struct Uid<'u> {
    /// The type.
    pub type_name: &'u str,
    /// The id.
    pub id: &'u str,
}

impl<'u> Uid<'u> {
    /// The uid of a type and an id.
    pub fn new(type_name: &'u str, id: &'u str) -> Uid<'u> {
        Uid { type_name, id }
    }

    /// The uid that a text such as `User::"ann"` denotes. `None` where the text has another form, or an escape: use [`Uid::new`] for an
    /// id with a quote or a backslash.
    pub fn parse(text: &'u str) -> Option<Uid<'u>> {
        let (type_name, id) = text.strip_suffix('"')?.split_once("::\"")?;
        let is_name =
            |it: &str| it.split("::").all(|part| !part.is_empty() && part.bytes().all(|b| b == b'_' || b.is_ascii_alphanumeric()));
        (is_name(type_name) && !id.contains(['"', '\\'])).then_some(Uid { type_name, id })
    }
}

/// A request: who wants to do what, on what.
#[derive(Clone, Debug)]
pub struct Request<'r> {
    /// Who.
    pub principal: Uid<'r>,
    /// What is to be done.
    pub action: Uid<'r>,
    /// On what.
    pub resource: Uid<'r>,
    /// The context: a JSON object, or empty.
    pub context: Cow<'r, str>,
}

impl<'r> Request<'r> {
    /// A request without a context.
    pub fn new(principal: Uid<'r>, action: Uid<'r>, resource: Uid<'r>) -> Request<'r> {
        Request { principal, action, resource, context: Cow::Borrowed("") }
    }

    /// The request with a context: a JSON object as a text, for example that of a `serde_json::Value` by `to_string`.
    pub fn with_context(self, context: impl Into<Cow<'r, str>>) -> Request<'r> {
        Request { context: context.into(), ..self }
    }

    fn parts(&self) -> [&str; 7] {
        let Request { principal, action, resource, context } = self;
        [principal.type_name, principal.id, action.type_name, action.id, resource.type_name, resource.id, context]
    }
}

/// What is decided of a request.
#[derive(Clone, Copy, Debug, PartialEq, Eq)]
pub enum Decision {
    /// The request is allowed.
    Allow,
    /// The request is denied.
    Deny,
}

/// Why a policy fails.
#[derive(Clone, Copy, Debug, PartialEq, Eq)]
#[non_exhaustive]
pub enum EvalError {
    /// A whole number leaves 64 bits.
    Overflow,
    /// An entity is not stored.
    MissingEntity,
    /// A string is not a decimal, with [`Files::any_decimal`].
    Decimal,
}

impl EvalError {
    fn named(name: &str) -> Option<EvalError> {
        match name {
            "overflow" => Some(EvalError::Overflow),
            "missing_entity" => Some(EvalError::MissingEntity),
            "decimal" => Some(EvalError::Decimal),
            _ => None,
        }
    }
}

impl std::fmt::Display for EvalError {
    fn fmt(&self, to: &mut std::fmt::Formatter<'_>) -> std::fmt::Result {
        to.write_str(match self {
            EvalError::Overflow => "overflow",
            EvalError::MissingEntity => "missing_entity",
            EvalError::Decimal => "decimal",
        })
    }
}

/// A policy that failed, and was skipped.
#[derive(Clone, Debug, PartialEq, Eq)]
pub struct Erring {
    /// The id of the policy.
    pub policy: String,
    /// Why it failed.
    pub error: EvalError,
}

/// The answer to a request.
#[derive(Clone, Debug, PartialEq, Eq)]
#[non_exhaustive]
pub struct Response {
    /// The decision.
    pub decision: Decision,
    /// The ids of the policies that determine it.
    pub determining: Vec<String>,
    /// The policies that failed. A service should watch them.
    pub erring: Vec<Erring>,
}

/// A report of the validation of policies.
#[derive(Clone, Debug, PartialEq, Eq)]
#[non_exhaustive]
pub struct Report {
    /// Whether the policies have no faults.
    pub is_accepted: bool,
    /// The report, as `cedar validate` prints it.
    pub text: String,
}

/// An engine, for any number of threads. Clones are the same engine.
#[derive(Clone)]
pub struct Engine {
    shared: Shared,
}

impl std::fmt::Debug for Engine {
    fn fmt(&self, to: &mut std::fmt::Formatter<'_>) -> std::fmt::Result {
        to.write_str("Engine")
    }
}

impl Engine {
    /// Reads and validates files, and makes an engine of them.
    ///
    /// # Errors
    ///
    /// [`Error::Refused`], [`Error::Faults`], [`Error::Memory`], or [`Error::Library`] where the library does not fit this crate.
    pub fn new(files: &Files) -> Result<Engine, Error> {
        match raw::abi_version() {
            ABI_VERSION => {
                let engine = Engine { shared: Shared::new()? };
                engine.publish(files)?;
                Ok(engine)
            }
            other => Err(Error::Library(other)),
        }
    }

    /// Reads and validates files, and has all later calls answer according to them. Requests do not wait for it: the work is done before
    /// the swap.
    ///
    /// # Errors
    ///
    /// Those of [`Engine::new`], and [`Error::Closed`]. Nothing has changed then.
    pub fn publish(&self, files: &Files) -> Result<(), Error> {
        made(|why| (self.shared.publish(files, why), ()))
    }

    /// Reads entities, and has all later calls answer over them, according to the schema, the policies and the links that are current.
    /// These are not read again. Requests do not wait for it; [`Engine::publish`] on another thread waits with its swap.
    ///
    /// # Errors
    ///
    /// [`Error::Refused`], [`Error::Memory`] and [`Error::Closed`]. Nothing has changed then.
    pub fn publish_entities(&self, entities: &[u8]) -> Result<(), Error> {
        made(|why| (self.shared.publish_entities(entities, why), ()))
    }

    /// Reads changes of entities, `{"upsert":[entry, ..],"remove":[uid, ..]}`, and has all later calls answer over the entities after them.
    /// What they do not name is not read again. Requests do not wait for it; another publisher waits.
    ///
    /// # Errors
    ///
    /// [`Error::Refused`], [`Error::Memory`] and [`Error::Closed`]. Nothing has changed then.
    pub fn publish_changes(&self, changes: &[u8]) -> Result<(), Error> {
        made(|why| (self.shared.publish_changes(changes, why), ()))
    }

    /// Another engine, of the same policies, over the entities after changes, for example those that a request brings with it. This engine is
    /// as before. The other one is freed when it is dropped.
    ///
    /// # Errors
    ///
    /// Those of [`Engine::publish_changes`].
    pub fn with_changes(&self, changes: &[u8]) -> Result<Engine, Error> {
        let shared = made(|why| self.shared.with_changes(changes, why))?;
        Ok(Engine { shared: shared.ok_or(Error::Memory)? })
    }

    /// How many changes of entities are kept over the entities that were read as a whole: 0 after [`Engine::publish`] and
    /// [`Engine::publish_entities`]. It takes time in proportion to the count.
    ///
    /// # Errors
    ///
    /// [`Error::Memory`] and [`Error::Closed`].
    pub fn kept_changes(&self) -> Result<u64, Error> {
        match self.shared.kept_changes() {
            (raw::OK, count) => Ok(count),
            (status, _) => Err(Error::of(status)),
        }
    }

    /// Whether a request is allowed. It makes no text, so it is the fastest call.
    ///
    /// # Errors
    ///
    /// [`Error::Request`] where the request is refused, [`Error::Memory`] and [`Error::Closed`].
    pub fn decide(&self, request: &Request) -> Result<Decision, Error> {
        self.decided(request, &mut Vec::new())
    }

    /// The answer to a request.
    ///
    /// # Errors
    ///
    /// Those of [`Engine::decide`].
    pub fn authorize(&self, request: &Request) -> Result<Response, Error> {
        let mut text = room(256)?;
        self.decided(request, &mut text)?;
        answer::response(&text_of(text)?).ok_or(Error::Library(raw::OK))
    }

    /// The earlier name of [`Engine::authorize`].
    ///
    /// # Errors
    ///
    /// Those of [`Engine::decide`].
    pub fn is_authorized(&self, request: &Request) -> Result<Response, Error> {
        self.authorize(request)
    }

    /// The answer line to a request line, as `cedar authorize` writes it, without a line feed.
    ///
    /// # Errors
    ///
    /// [`Error::Memory`] and [`Error::Closed`]. A line that is refused has an answer that says so.
    pub fn answer_line(&self, line: impl AsRef<[u8]>) -> Result<String, Error> {
        self.answered(Asks::Line, line.as_ref(), 256)
    }

    /// The answer lines to request lines, all of one engine.
    ///
    /// # Errors
    ///
    /// Those of [`Engine::answer_line`].
    pub fn answer(&self, lines: impl AsRef<[u8]>) -> Result<String, Error> {
        self.answered(Asks::Lines, lines.as_ref(), 256 + lines.as_ref().len())
    }

    /// The answer lines to request lines that may bring entities, as `cedar authorize --entities-in-lines` writes them, all of one engine.
    /// The entities of a line replace those of the engine with their uids, or are added to them, for this line alone.
    ///
    /// # Errors
    ///
    /// Those of [`Engine::answer_line`]. A line with entities that are refused has an answer that says so.
    pub fn answer_with_entities(&self, lines: impl AsRef<[u8]>) -> Result<String, Error> {
        self.answered(Asks::LinesWithEntities, lines.as_ref(), 256 + lines.as_ref().len())
    }

    /// Why a request line is refused, in words; empty where it is not. `may_bring_entities` is for lines of
    /// [`Engine::answer_with_entities`].
    ///
    /// # Errors
    ///
    /// [`Error::Memory`] and [`Error::Closed`].
    pub fn explain_line(&self, line: impl AsRef<[u8]>, may_bring_entities: bool) -> Result<String, Error> {
        let line = line.as_ref();
        written(1024, |text| self.shared.explain_line(line, may_bring_entities, text))
    }

    /// Frees all that no running call uses. Later calls fail with [`Error::Closed`]. Closing twice is safe. Dropping the last clone
    /// frees the engine, too.
    pub fn close(&self) {
        self.shared.close();
    }

    fn answered(&self, asks: Asks, lines: &[u8], bytes: usize) -> Result<String, Error> {
        written(bytes, |text| self.shared.answer(asks, lines, text))
    }

    fn decided(&self, request: &Request, text: &mut Vec<u8>) -> Result<Decision, Error> {
        match self.shared.decide(&request.parts(), text) {
            (raw::OK, decided) if decided.allow == 1 => Ok(Decision::Allow),
            (raw::OK, _) => Ok(Decision::Deny),
            (raw::NO_REQUEST, decided) => Err(self.refused(request, decided.refused)),
            (status, _) => Err(Error::of(status)),
        }
    }

    /// The error for a request that is refused with a number.
    fn refused(&self, request: &Request, number: u32) -> Error {
        Error::Request(Box::new(RequestRefusal { number, engine: self.clone(), parts: request.parts().map(String::from) }))
    }

    /// Why a request is refused, in words.
    fn words_of(&self, refusal: &RequestRefusal) -> Result<String, Error> {
        let parts: [&str; 7] = std::array::from_fn(|at| refusal.parts[at].as_str());
        written(1024, |text| self.shared.explain_request(&parts, refusal.number, text))
    }
}

/// Makes a call that says in words why it refuses something.
fn made<T: Send>(call: impl FnOnce(&mut Why) -> (u32, T) + Send) -> Result<T, Error> {
    on_enough_stack(|| {
        let mut why = Why::new();
        let (status, value) = call(&mut why);
        why.done(status).map(|()| value)
    })
}

/// Validates the policies of files. `entities` is not read.
///
/// # Errors
///
/// [`Error::Refused`] where a file is refused, and [`Error::Memory`].
pub fn validate(files: &Files) -> Result<Report, Error> {
    on_enough_stack(|| {
        let (mut why, mut text) = (Why::new(), room(1024)?);
        match raw::validate(files, &mut why, &mut text) {
            status @ (raw::OK | raw::FAULTS) => Ok(Report { is_accepted: status == raw::OK, text: text_of(text)? }),
            status => Err(why.done(status).err().unwrap_or(Error::Library(status))),
        }
    })
}

/// Explains in words why files are refused or have faults. Empty where they are accepted.
///
/// # Errors
///
/// [`Error::Memory`].
pub fn explain(files: &Files) -> Result<String, Error> {
    on_enough_stack(|| written(1024, |text| raw::explain(files, text)))
}

/// The version of the engine, for example `0.1.0`.
///
/// # Errors
///
/// [`Error::Memory`].
pub fn version() -> Result<String, Error> {
    written(16, raw::version)
}

/// A buffer of this many bytes.
fn room(bytes: usize) -> Result<Vec<u8>, Error> {
    let mut text = Vec::new();
    text.try_reserve_exact(bytes).map_err(|_| Error::Memory)?;
    Ok(text)
}

/// A copy of bytes.
fn copied(bytes: &[u8]) -> Result<Vec<u8>, Error> {
    let mut copy = room(bytes.len())?;
    copy.extend_from_slice(bytes);
    Ok(copy)
}

fn text_of(text: Vec<u8>) -> Result<String, Error> {
    String::from_utf8(text).map_err(|_| Error::Library(raw::OK))
}

/// The text that a call writes, which begins with room for so many bytes.
fn written(bytes: usize, call: impl FnOnce(&mut Vec<u8>) -> u32) -> Result<String, Error> {
    let mut text = room(bytes)?;
    match call(&mut text) {
        raw::OK => text_of(text),
        status => Err(Error::of(status)),
    }
}
