//! `kadvitul graph`: a rule as a picture, in Graphviz' words or as SVG; with inputs, the way of the run is marked.

use std::process::Command;

use super::arguments::Request;
use super::expression::{tokens, Token};
use super::json::object;
use super::proved::{self, Run};
use super::rule::{Action, Rule};
use super::run::input_list;
use super::{failed, path, refusal, Answer, Outcome, DONE};
use crate::encoding::Form;
use crate::program::{self, Printed};
use crate::verdict::{self, ENDED, UNSAFE};

/// Longer lines of a picture are broken.
const LINE: usize = 60;
const ON_THE_WAY: &str = "#d5ead5";
const EDGE_TAKEN: &str = "#2a7a2a";
const FAILED_HERE: &str = "#f2b0b0";
const LEFT_HERE: &str = "#f5e3b5";

pub fn answer(request: &Request) -> Outcome {
    if request.has_inputs() {
        request.needed_bound()?;
    }
    let rule = request.read_rule()?;
    let way = request.bound().map(|bound| Way::of(request, &rule, bound)).transpose()?;
    let dot = Picture { rule: &rule, way: way.as_ref() }.dot(&request.rule);
    let path = way.map(|way| way.path);
    let text = if request.has("--svg") { svg(&dot)? } else { dot };
    let fields = [("answer", "picture".into()), ("path", path.into()), ("text", text.as_str().into())];
    Ok(Answer { status: DONE, json: object(fields), text })
}

fn svg(dot: &str) -> Result<String, Answer> {
    let fault = |why: String| failed("dot failed", format!("graph: the program dot {why}, or leave --svg out"));
    match program::feed_to(Command::new("dot").arg("-Tsvg"), dot.as_bytes()) {
        Ok(Printed { text, exit_status: Some(0), .. }) => Ok(String::from_utf8_lossy(&text).into_owned()),
        Ok(_) => Err(fault("fails. See why with: kadvitul graph RULE | dot -Tsvg".into())),
        Err(error) => Err(fault(format!("cannot be run: {error}. Install it (apt-get install graphviz)"))),
    }
}

/// The way of a run.
struct Way {
    run: Run,
    path: Vec<usize>,
    title: String,
}

impl Way {
    fn of(request: &Request, rule: &Rule, bound: u64) -> Result<Way, Answer> {
        let words = request.words(rule)?;
        let refused = |refusal| refusal::answer(&rule.table, bound, refusal);
        let run = proved::run(&rule.table, bound, &words).map_err(refused)?;
        let path = path::of(rule, &words, &run).map_err(refused)?;
        let path =
            path.ok_or_else(|| failed("no path", "graph: the path does not end as the run does. Report this".into()))?;
        let inputs = if words.is_empty() { String::new() } else { format!(", {}", input_list(&words)) };
        let place = run.end.unsafe_place().map_or(String::new(), |place| format!(" at place {place}"));
        let title = format!("K = {bound}{inputs}: {}{place}", verdict::name(run.end.verdict));
        Ok(Way { run, path, title })
    }

    fn taken(&self, from: usize, to: usize) -> usize {
        self.path.windows(2).filter(|step| *step == [from, to]).count()
    }

    fn colour(&self, i: usize) -> Option<&'static str> {
        let is_last = self.path.last() == Some(&i);
        match self.run.end.verdict {
            UNSAFE if is_last => Some(FAILED_HERE),
            verdict if is_last && verdict != ENDED => Some(LEFT_HERE),
            _ => self.path.contains(&i).then_some(ON_THE_WAY),
        }
    }
}

struct Picture<'a> {
    rule: &'a Rule,
    way: Option<&'a Way>,
}

impl Picture<'_> {
    fn dot(&self, name: &str) -> String {
        let title = self.way.map_or(name.to_string(), |way| format!("{name}, {}", way.title));
        let end = self.rule.instruction_count();
        let nodes: String = (0..=end).map(|i| self.node(i)).collect();
        let edges: String = (0..end).flat_map(|i| self.edges_from(i)).collect();
        let head = format!("    label=\"{}\" labelloc=t fontname=monospace\n", lines(&title));
        let looks = "    node [shape=box fontname=monospace]\n    edge [fontname=monospace]\n";
        format!("digraph rule {{\n{head}{looks}{nodes}{edges}}}\n")
    }

    fn node(&self, i: usize) -> String {
        let shape = if i == self.rule.instruction_count() { " shape=oval" } else { "" };
        let colour = self.way.and_then(|way| way.colour(i));
        let colour = colour.map_or(String::new(), |colour| format!(" style=filled fillcolor=\"{colour}\""));
        format!("    n{i} [label=\"{}\"{shape}{colour}]\n", lines(&self.rule.line(i)))
    }

    /// A jump has two, unless its condition is a constant or both go to one place.
    fn edges_from(&self, i: usize) -> Vec<String> {
        let instruction = self.rule.instruction(i).expect("an instruction");
        let Action::Jump(target) = instruction.action else {
            return vec![self.edge(i, i + 1, "")];
        };
        let target = usize::from(target);
        match tokens(Form::Table, instruction.expression).0[..] {
            [Token::Constant(0)] => vec![self.edge(i, i + 1, "")],
            [Token::Constant(_)] => vec![self.edge(i, target, "")],
            _ if target == i + 1 => vec![self.edge(i, target, "")],
            _ => vec![self.edge(i, target, "yes"), self.edge(i, i + 1, "no")],
        }
    }

    fn edge(&self, from: usize, to: usize, when: &str) -> String {
        let taken = self.way.map_or(0, |way| way.taken(from, to));
        let times = if taken > 1 { format!("{taken}x") } else { String::new() };
        let label = [when, &times].join(" ");
        let label = Some(label.trim()).filter(|label| !label.is_empty()).map(|label| format!("label=\"{label}\""));
        let colour = Some(format!("color=\"{EDGE_TAKEN}\" penwidth=3")).filter(|_| taken > 0);
        let looks: Vec<String> = label.into_iter().chain(colour).collect();
        format!("    n{from} -> n{to} [{}]\n", looks.join(" ")).replace(" []", "")
    }
}

/// A label of Graphviz, broken at blanks.
fn lines(text: &str) -> String {
    let mut lines = vec![String::new()];
    for word in text.split(' ') {
        let line = lines.last_mut().expect("a line");
        if !line.is_empty() && line.len() + word.len() > LINE {
            lines.push(word.into());
        } else {
            *line += if line.is_empty() { "" } else { " " };
            *line += word;
        }
    }
    let lines: Vec<String> = lines.iter().map(|line| line.replace('\\', "\\\\").replace('"', "\\\"")).collect();
    lines.join("\\n")
}
