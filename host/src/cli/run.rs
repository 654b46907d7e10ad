//! `kadvitul run`: what becomes of a rule with given inputs.

use super::arguments::Request;
use super::ending::instruction_at_end;
use super::json::{object, Json};
use super::proved::{self, Run};
use super::rule::Rule;
use super::{refusal, Answer, Outcome, DONE, UNSAFE};
use crate::verdict::{self, CUT, STOPPED};

pub fn answer(request: &Request) -> Outcome {
    let bound = request.needed_bound()?;
    let rule = request.read_rule()?;
    let words = request.words(&rule)?;
    let run = proved::run(&rule.table, bound, &words);
    let run = run.map_err(|refusal| refusal::answer(&rule.table, bound, refusal))?;
    let last = instruction_at_end(&rule, bound, &words, &run);
    let place = run.end.unsafe_place();
    let fields = [
        ("answer", verdict::name(run.end.verdict).into()),
        ("bound", bound.into()),
        ("inputs", named(&words)),
        ("place", place.into()),
        ("instruction", last.into()),
        ("back_jumps", run.back_jumps.into()),
    ];
    let status = if place.is_some() { UNSAFE } else { DONE };
    Ok(Answer { status, text: text(&rule, bound, &run, last), json: object(fields) })
}

/// How a run ended, and the instruction at which it did, where that is known.
pub fn text(rule: &Rule, bound: u64, run: &Run, last: Option<usize>) -> String {
    let after = back_jumps(run.back_jumps.into());
    let line = |last: Option<usize>| last.map_or(String::new(), |i| format!("    {}\n", rule.line(i)));
    if let Some(place) = run.end.unsafe_place() {
        let (i, _) = rule.at(place);
        return format!("unsafe at place {place}: instruction {i} fails after {after}\n{}", line(Some(i)));
    }
    let words = match run.end.verdict {
        STOPPED => {
            "an assumption does not hold, and no assertion failed before it; the rule claims nothing more".into()
        }
        CUT => format!("K = {bound} allows no more of them; no assertion failed so far, and a larger K may find one"),
        _ => "the run went past the last instruction, and no assertion failed".into(),
    };
    format!("{} after {after}: {words}\n{}", verdict::name(run.end.verdict), line(last))
}

/// So many back jumps, in words.
pub fn back_jumps(count: u64) -> String {
    if count == 1 {
        return "1 back jump".into();
    }
    format!("{count} back jumps")
}

/// `s0 = 2, s1 = 0`.
pub fn input_list(words: &[u32]) -> String {
    let inputs: Vec<String> = words.iter().enumerate().map(|(symbol, word)| format!("s{symbol} = {word}")).collect();
    inputs.join(", ")
}

/// Inputs by name, for programs.
pub fn named(words: &[u32]) -> Json {
    Json::Object(words.iter().enumerate().map(|(symbol, word)| (format!("s{symbol}"), (*word).into())).collect())
}
