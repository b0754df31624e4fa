//! Reports in parts.
use crate::raw::{self, Place, Why};
use crate::stack::on_enough_stack;
use crate::{room, text_of, Error, Files};

/// The room with which a part begins, in bytes: most parts are a little longer than 64 KiB.
const ROOM: usize = 72 << 10;

/// A report in parts, each of which is made when it is asked for: an iterator over texts of whole lines. It may be dropped at any part, and
/// the rest is then never made. A clone goes on by itself.
///
/// A part ends after the policy with which it has 64 KiB, or after 1,000 policies. It may be empty. An error is that of
/// [`validate`](crate::validate), and ends the iterator.
#[derive(Clone, Debug)]
#[must_use = "a part is made only when it is asked for"]
pub struct ReportParts<'f> {
    files: Files<'f>,
    place: Place,
    is_over: bool,
    is_accepted: bool,
}

/// Validates the policies of files, of which `entities` is not read, and gives the report in parts. It is for policies that one does not
/// trust, whose report may be a thousand times as long as they are.
///
/// The parts, one after another, are the text of [`validate`](crate::validate). With a limit of `lines` they are its first lines, as many as
/// these, and the line of totals, which has all counts.
///
/// ```no_run
/// # use bobbinjade::{validate_parts, Files};
/// # fn shown(files: &Files) -> Result<(), bobbinjade::Error> {
/// for part in validate_parts(files, Some(1000)) {
///     print!("{}", part?);
/// }
/// # Ok(())
/// # }
/// ```
pub fn validate_parts<'f>(files: &Files<'f>, lines: Option<u64>) -> ReportParts<'f> {
    ReportParts { files: *files, place: Place::first(lines), is_over: false, is_accepted: false }
}

impl ReportParts<'_> {
    /// How many policies have been reported on so far.
    pub fn policies(&self) -> u64 {
        self.place.policies
    }

    /// How many faults they have.
    pub fn faults(&self) -> u64 {
        self.place.faults
    }

    /// How many warnings.
    pub fn warnings(&self) -> u64 {
        self.place.warnings
    }

    /// Whether the report has ended, and the policies have no faults.
    pub fn is_accepted(&self) -> bool {
        self.is_accepted
    }

    /// The next part, and the status with which it was made.
    fn part(&mut self) -> Result<(String, u32), Error> {
        let ReportParts { files, place, .. } = self;
        on_enough_stack(|| {
            let (mut why, mut text) = (Why::new(), room(ROOM)?);
            match raw::validate_part(files, place, &mut why, &mut text) {
                status @ (raw::OK | raw::FAULTS | raw::MORE) => Ok((text_of(text)?, status)),
                status => Err(why.done(status).err().unwrap_or(Error::Library(status))),
            }
        })
    }
}

impl Iterator for ReportParts<'_> {
    type Item = Result<String, Error>;

    fn next(&mut self) -> Option<Result<String, Error>> {
        if self.is_over {
            return None;
        }
        let made = self.part();
        self.is_over = !matches!(made, Ok((_, raw::MORE)));
        self.is_accepted = matches!(made, Ok((_, raw::OK)));
        Some(made.map(|(text, _)| text))
    }
}

impl std::iter::FusedIterator for ReportParts<'_> {}
