//! `why DUMP OBJECT [POSITION]`: why a byte of a file is what it is, or by runs all
//! of its bytes.

use super::Opened;
use crate::failure::Failure;
use crate::ffi::{SpanAnswer, WhyAnswer};
use crate::fields::{Field, Printer};
use crate::paths::Named;
use crate::progress::Progress;
use crate::reasons::{self, Reason};
use crate::standard::remark;
use crate::typed::Typed;

pub fn why(
    opened: &Opened,
    object: &Named,
    position: Option<u64>,
    out: &mut Printer<'_>,
) -> Result<(), Failure> {
    let object = &opened.object(object)?;
    match position {
        Some(position) => byte(opened, object, position, out),
        None => runs(opened, object, out),
    }
}

/// One byte, a line for each field, with a sentence behind them.
fn byte(
    opened: &Opened,
    object: &Typed,
    position: u64,
    out: &mut Printer<'_>,
) -> Result<(), Failure> {
    let progress = Progress::new("going over the pages", None);
    let reasons = opened.reasons();
    let answer = reasons.why(object.number, position);
    let answer = opened.given(answer, opened.asked().of(object))?;
    let because = reasons.because(object.number, position, answer);
    opened.check_length()?;
    drop(progress);
    let mut fields = Reason::from(answer).fields();
    if answer.reason != WhyAnswer::PAST_END {
        fields.push(("value", answer.value.into()));
    }
    fields.push(("until", answer.until.into()));
    fields.push(("because", because.into()));
    Ok(out.lines(&fields)?)
}

/// All bytes of the file, a line for each run of one reason and page.
fn runs(opened: &Opened, object: &Typed, out: &mut Printer<'_>) -> Result<(), Failure> {
    let progress = Progress::new("going over the pages", None);
    let reasons = opened.reasons();
    let asked = opened.asked().of(object);
    let (answer, rows) = reasons.spans(object.number);
    let size = opened.given(answer, asked)?.size;
    drop(progress);
    if size == 0 {
        let setter = opened.done(reasons.setter(object.number), asked)?;
        let sets = reasons.sets_size(setter);
        remark(&format!("the file has no bytes: {sets}"));
    }
    let progress = Progress::beside_output("printing runs", rows.len() as u64);
    for (run, until) in reasons::runs(opened.geometry(), &rows, size) {
        out.line(&line(run, until))?;
        progress.add(1);
    }
    Ok(())
}

/// The line of a run.
pub fn line(run: SpanAnswer, until: u64) -> Vec<Field<'static>> {
    let mut fields = vec![("from", run.from.into()), ("until", until.into())];
    fields.extend(Reason::from(run).fields());
    fields
}
