//! `kadvitul script`: what a solver is asked.

use super::arguments::Request;
use super::json::object;
use super::proved;
use super::{refusal, Answer, Outcome, DONE};

pub fn answer(request: &Request) -> Outcome {
    let bound = request.needed_bound()?;
    let rule = request.read_rule()?;
    let trace = proved::trace(&rule.table, bound);
    let script = trace.and_then(|trace| {
        let trace = if request.has("--whole") { trace } else { proved::slice(&trace)?.bytes };
        proved::script(&trace)
    });
    let script = script.map_err(|refusal| refusal::answer(&rule.table, bound, refusal))?;
    let text = String::from_utf8_lossy(&script).into_owned();
    let fields = [("answer", "script".into()), ("bound", bound.into()), ("text", text.as_str().into())];
    Ok(Answer { status: DONE, json: object(fields), text })
}
