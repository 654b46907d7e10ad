//! What solvers say of scripts, alone or many in one go, against what the calls say of their traces and of their tables.

use std::time::Duration;

use crate::agreement::demand_3;
use crate::archive::Calls;
use crate::case::{JudgeCase, RunCase, ScriptCase};
use crate::check::Asked;
use crate::encoding;
use crate::generate::random::Random;
use crate::generate::right_valuation;
use crate::solver::{Answer, Failure, Printed, Solver};
use crate::verdict::UNSAFE;

/// More than any script that is asked here takes.
pub const LIMIT: Duration = Duration::from_secs(120);

/// How many valuations try to refute that there is no solution.
const TRIES: usize = 200;

const LAST_LINE: &[u8] = b"(check-sat)\n";

/// What a solver says of a script.
#[derive(Clone, Copy, Debug, PartialEq, Eq)]
pub enum Says {
    Sat,
    Unsat,
}

/// Says which solver is missing.
pub fn find() -> Result<(), String> {
    Solver::ALL.iter().try_for_each(|solver| printed(solver, vec![]).map(drop))
}

pub fn decide(solver: &Solver, script: &[u8]) -> Result<Says, String> {
    Ok(decide_all(solver, &[script])?[0])
}

/// Answers each of several scripts in one go.
pub fn decide_all<S: AsRef<[u8]>>(solver: &Solver, scripts: &[S]) -> Result<Vec<Says>, String> {
    let texts: Vec<&[u8]> = scripts.iter().map(AsRef::as_ref).collect();
    let printed = printed(solver, texts.join(&b"(reset)\n"[..]))?;
    let answers: Option<Vec<Says>> = printed.lines().map(says).collect();
    let answers = answers.filter(|answers| answers.len() == scripts.len());
    answers.ok_or_else(|| complaint(solver, "prints", &printed))
}

fn says(line: &str) -> Option<Says> {
    match line {
        "sat" => Some(Says::Sat),
        "unsat" => Some(Says::Unsat),
        _ => None,
    }
}

/// Words for a script's inputs that satisfy it; none where it cannot be satisfied.
pub fn solve(solver: &Solver, script: &[u8], inputs: u8) -> Result<Option<Vec<u32>>, String> {
    let names: Vec<String> = (0..inputs).map(|input| format!("s{input}")).collect();
    match solver.ask(script, &names, LIMIT) {
        Ok(Answer::Sat { words, .. }) => Ok(Some(words)),
        Ok(Answer::Unsat) => Ok(None),
        Err(failure) => Err(failed(solver, &failure)),
    }
}

/// All that a solver prints for a text of commands.
pub fn printed(solver: &Solver, text: Vec<u8>) -> Result<String, String> {
    let Printed { output, errors, .. } = solver.print(text, LIMIT).map_err(|failure| failed(solver, &failure))?;
    Ok(output + &errors)
}

fn failed(solver: &Solver, Failure { fault, output, errors }: &Failure) -> String {
    complaint(solver, &format!("{fault}, and prints"), &format!("{output}{errors}"))
}

/// With the first lines that are no answer.
fn complaint(solver: &Solver, what: &str, printed: &str) -> String {
    let lines: Vec<&str> = printed.lines().filter(|line| says(line).is_none()).take(5).collect();
    format!("{} {what} {} lines, and among them: {}", solver.name(), printed.lines().count(), lines.join("; "))
}

/// A script that asks about these words for its inputs alone.
pub fn pin(script: &[u8], valuation: &[u8]) -> Vec<u8> {
    let words = valuation.chunks_exact(4).map(|bytes| u32::from_be_bytes([bytes[0], bytes[1], bytes[2], bytes[3]]));
    let pins: String = words.zip(0..).map(|(word, input)| format!("(assert (= s{input} #x{word:08x}))\n")).collect();
    [script.strip_suffix(LAST_LINE).unwrap_or(script), pins.as_bytes(), LAST_LINE].concat()
}

/// A script in which a remainder by zero is 0, as it was before request 2026-05.
pub fn with_zero_remainders(script: &str) -> String {
    let mut parts = script.split("(bvurem ");
    let first = parts.next().unwrap_or_default().to_owned();
    parts.fold(first, |text, part| {
        let (operands, rest) = part.split_once(')').unwrap_or((part, ""));
        let divisor = operands.split(' ').next_back().unwrap_or_default();
        text + "(ite (= " + divisor + " #x00000000) #x00000000 (bvurem " + operands + "))" + rest
    })
}

/// What is due of a trace's script whose inputs are pinned.
pub fn due(JudgeCase { trace, valuation }: &JudgeCase, calls: &dyn Calls) -> Says {
    if calls.judge_verdict(trace, valuation) == UNSAFE {
        return Says::Sat;
    }
    Says::Unsat
}

/// Both solvers answer the script, and alike. It says nothing of a refused case.
pub fn accepted(case: &ScriptCase, calls: &dyn Calls) -> Asked {
    let reply = calls.script_reply(&case.trace, &mut vec![0; case.room]);
    if reply != 0 {
        return Asked { reply, counts: false, wrong: vec![] };
    }
    let script = calls.whole_script(&case.trace);
    match decide(&Solver::Z3, &script) {
        Ok(due) => Asked { reply, counts: due == Says::Sat, wrong: answers_but(due, &[Solver::Cvc5], &script) },
        Err(complaint) => Asked { reply, counts: false, wrong: vec![complaint] },
    }
}

/// With its inputs pinned a script can be satisfied exactly if its trace is judged unsafe. It says nothing of a refused
/// case.
pub fn pinned(case: &JudgeCase, calls: &dyn Calls) -> Asked {
    let reply = calls.judge_reply(&case.trace, &case.valuation);
    if reply != 0 {
        return Asked { reply, counts: false, wrong: vec![] };
    }
    let due = due(case, calls);
    let script = pin(&calls.whole_script(&case.trace), &case.valuation);
    Asked { reply, counts: due == Says::Sat, wrong: answers_but(due, &Solver::ALL, &script) }
}

/// A line for each solver that does not give the answer.
fn answers_but(due: Says, solvers: &[Solver], script: &[u8]) -> Vec<String> {
    let difference = |solver: &Solver| match decide(solver, script) {
        Ok(answer) => (answer != due).then(|| format!("{} says {answer:?}, not {due:?}", solver.name())),
        Err(complaint) => Some(complaint),
    };
    solvers.iter().filter_map(difference).collect()
}

/// Inputs that satisfy the script of a written trace, or of its slice, make the run unsafe, and the judged trace and
/// slice at its place; where there are none, no other words do. It says nothing where there is no trace.
pub fn solved(case: &RunCase, calls: &dyn Calls) -> Asked {
    let trace = calls.whole_trace(&case.table, case.bound);
    if trace.is_empty() {
        return Asked { reply: 0, counts: false, wrong: vec![] };
    }
    let scripts = [&trace, &calls.whole_slice(&trace)].map(|trace| calls.whole_script(trace));
    let asked = Solver::ALL.iter().flat_map(|solver| scripts.iter().map(move |script| (solver, script)));
    let solutions: Vec<_> = asked.map(|(solver, script)| solve(solver, script, trace[3])).collect();
    let counts = solutions.iter().all(|solution| matches!(solution, Ok(Some(_))));
    let wrong = solutions.into_iter().flat_map(|solution| match solution {
        Ok(Some(words)) => refute_solution(&with_words(case, &words), calls),
        Ok(None) => refute_no_solution(case, calls),
        Err(complaint) => vec![complaint],
    });
    Asked { reply: 0, counts, wrong: wrong.collect() }
}

fn with_words(case: &RunCase, words: &[u32]) -> RunCase {
    RunCase { valuation: encoding::valuation(words), ..case.clone() }
}

/// What is wrong with a solution, if anything is.
fn refute_solution(case: &RunCase, calls: &dyn Calls) -> Vec<String> {
    let mut wrong = demand_3(case, calls).wrong;
    if !is_unsafe(case, calls) {
        wrong.push(format!("a solution that is not unsafe: {:?}", case.valuation));
    }
    wrong
}

/// Words that are unsafe where there should be none, if any are found.
fn refute_no_solution(case: &RunCase, calls: &dyn Calls) -> Vec<String> {
    let mut random = Random::new(1);
    let inputs = case.valuation.len() / 4;
    let tries = (0..TRIES).map(|_| RunCase { valuation: right_valuation(&mut random, inputs), ..case.clone() });
    let mut refuting = tries.filter(|case| is_unsafe(case, calls));
    refuting.next().map(|case| format!("unsafe, and no solution: {:?}", case.valuation)).into_iter().collect()
}

fn is_unsafe(RunCase { table, bound, valuation }: &RunCase, calls: &dyn Calls) -> bool {
    calls.run_verdict(table, *bound, valuation) == UNSAFE
}
