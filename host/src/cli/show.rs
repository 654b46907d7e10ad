//! `kadvitul show`: a table's instructions.

use super::arguments::Request;
use super::json::{object, Json};
use super::rule::{Action, Rule};
use super::{Answer, Outcome, DONE};

pub fn answer(request: &Request) -> Outcome {
    let rule = request.read_rule()?;
    let count = rule.instruction_count();
    let lines: String = (0..count).map(|i| rule.line(i) + "\n").collect();
    let text = format!("inputs {} instructions {count}\n{lines}", rule.inputs);
    let fields = [("answer", "table".into()), ("inputs", rule.inputs.into()), ("instructions", instructions(&rule))];
    Ok(Answer { status: DONE, text, json: object(fields) })
}

fn instructions(rule: &Rule) -> Json {
    let instructions = rule.instructions().zip(rule.offsets()).enumerate();
    let objects = instructions.map(|(i, (instruction, offset))| {
        let (symbol, target) = match instruction.action {
            Action::Assign(symbol) => (Some(usize::from(symbol)), None),
            Action::Jump(target) => (None, Some(usize::from(target))),
            Action::Assume | Action::Assert => (None, None),
        };
        object([
            ("number", i.into()),
            ("offset", offset.into()),
            ("kind", instruction.kind().into()),
            ("symbol", symbol.into()),
            ("target", target.into()),
            ("back", target.is_some_and(|target| target <= i).into()),
            ("text", instruction.to_string().into()),
            ("tokens", instruction.tokens().into()),
        ])
    });
    Json::List(objects.collect())
}
