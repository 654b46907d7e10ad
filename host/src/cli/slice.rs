//! `kadvitul slice`: what can matter to an assertion, as the proved printer prints it.

use std::process::Command;

use super::arguments::Request;
use super::json::object;
use super::source::home;
use super::{failed, proved, refusal, text, Answer, Outcome, DONE};
use crate::program::{self, Printed};

/// Below the project's folder.
const PRINTER: &str = "target/bin/print_slice";

pub fn answer(request: &Request) -> Outcome {
    let bound = request.needed_bound()?;
    let rule = request.read_rule()?;
    let trace = proved::trace(&rule.table, bound);
    let trace = trace.map_err(|refusal| refusal::answer(&rule.table, bound, refusal))?;
    let text = if request.has("--whole") { text::of(&trace) } else { printed(&rule.table, bound)? };
    let fields = [("answer", "text".into()), ("bound", bound.into()), ("text", text.as_str().into())];
    Ok(Answer { status: DONE, json: object(fields), text })
}

/// The printer's text.
fn printed(table: &[u8], bound: u64) -> Result<String, Answer> {
    let fault =
        |why: String| failed("printer failed", format!("slice: the proved printer {why}. Build it with make cli"));
    let path = home().map(|folder| folder.join(PRINTER)).filter(|path| path.is_file());
    let path = path.ok_or_else(|| fault(format!("is missing: no folder above this program has {PRINTER}")))?;
    let input = [&[u8::try_from(bound).unwrap_or(u8::MAX)], table].concat();
    match program::feed_to(&mut Command::new(&path), &input) {
        Ok(Printed { text, exit_status: Some(0), is_error_empty: true }) if text.starts_with(b"inputs ") => {
            Ok(String::from_utf8_lossy(&text).into_owned())
        }
        Ok(Printed { text, .. }) => Err(fault(format!("fails. It printed: {}", String::from_utf8_lossy(&text)))),
        Err(error) => Err(fault(format!("cannot be run: {}: {error}", path.display()))),
    }
}
