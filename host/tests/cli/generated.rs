//! Generated rules, with both solvers: what is sat replays, what is unsat is not refuted by random valuations, nor by
//! the other solver.

use std::thread;
use std::time::Duration;

use host::cli::check::{Question, Replay};
use host::cli::proved::{self, Judgement, Run};
use host::generate::random::Random;
use host::hold::{case_count, first_seed};
use host::solver::Solver;
use host::verdict::{CUT, ENDED, STOPPED, UNSAFE};
use host::{generate, hex};

use crate::program::shell;

const RULES: u64 = 300;
const VALUATIONS: usize = 1_000;
/// A solver has less time for a rule than a person gives it, so longer scripts are left out.
const SCRIPT_LIMIT: usize = 10_000;
const TIMEOUT: Duration = Duration::from_secs(10);
/// Of 100 rules a solver may leave so many undecided.
const UNDECIDED: u64 = 3;
/// Of 100 rules so many have to be sat, and so many unsat.
const LEAST: u64 = 20;
/// Every so manieth rule is also given to the program.
const BY_PROGRAM: usize = 15;

/// A rule with a trace whose script is not long.
struct Generated {
    seed: u64,
    table: Vec<u8>,
    bound: u64,
    question: Question,
}

fn rules() -> Vec<Generated> {
    let seeds = first_seed().unwrap_or(1)..;
    let rules = seeds.filter_map(|seed| {
        let case = generate::unwound_run_case(seed);
        let question = Question::of(&case.table, case.bound).ok()?;
        let is_short = question.script.len() < SCRIPT_LIMIT;
        is_short.then_some(Generated { seed, table: case.table, bound: case.bound, question })
    });
    rules.take(case_count(RULES) as usize).collect()
}

impl Generated {
    /// How a rule is looked at again.
    fn name(&self, solver: &Solver) -> String {
        let line = format!("printf '{}' | target/kadvitul check - --hex", hex::text(&self.table));
        format!("the rule of seed {}: {line} -k {} --solver {}", self.seed, self.bound, solver.name())
    }

    /// Whether it is unsafe, or nothing where the solver does not decide in time.
    fn ask(&self, solver: &Solver) -> Option<bool> {
        let found = self.question.ask(solver, TIMEOUT).ok()?;
        let Some(found) = found else {
            self.hold_unrefuted(solver);
            return Some(false);
        };
        let replay = self.question.replay(&found.words).unwrap_or_else(|refusal| panic!("{refusal:?}"));
        assert!(replay.unsafe_place().is_some(), "{replay:?} for {:?}; {}", found.words, self.name(solver));
        Some(true)
    }

    fn hold_unrefuted(&self, solver: &Solver) {
        let mut random = Random::new(self.seed);
        for _ in 0..VALUATIONS {
            let words: Vec<u32> = (0..self.table[3]).map(|_| random.word()).collect();
            let run = proved::run(&self.table, self.bound, &words).unwrap_or_else(|refusal| panic!("{refusal:?}"));
            assert_eq!(run.end.unsafe_place(), None, "unsat, but {words:?} is unsafe; {}", self.name(solver));
        }
    }

    /// The program's exit status is what the parts say.
    fn hold_program(&self, solver: &Solver, is_unsafe: bool) {
        let line = format!("printf '{}' | kadvitul check - --hex", hex::text(&self.table));
        let line = format!("{line} -k {} --solver {}", self.bound, solver.name());
        let output = shell(&line, &format!("generated-{}", solver.name()));
        assert_eq!(output.status.code(), Some(i32::from(is_unsafe)), "{}", self.name(solver));
    }
}

/// What a solver says of each rule.
fn answers(rules: &[Generated], solver: &Solver) -> Vec<Option<bool>> {
    let answers: Vec<Option<bool>> = rules.iter().map(|rule| rule.ask(solver)).collect();
    for (rule, is_unsafe) in rules.iter().zip(&answers).step_by(BY_PROGRAM) {
        is_unsafe.iter().for_each(|is_unsafe| rule.hold_program(solver, *is_unsafe));
    }
    answers
}

fn count(answers: &[Option<bool>], answer: Option<bool>) -> u64 {
    answers.iter().filter(|given| **given == answer).count() as u64
}

#[test]
fn unsafe_is_what_run_trace_and_slice_are_at_one_place() {
    let end = |(verdict, place)| Judgement { verdict, place };
    let place = |[run, trace, slice]: [(u32, u32); 3]| {
        let run = Run { end: end(run), back_jumps: 0 };
        Replay { run, trace: end(trace), slice: end(slice) }.unsafe_place()
    };
    assert_eq!(place([(UNSAFE, 3); 3]), Some(3));
    for other in [(UNSAFE, 4), (ENDED, 0), (STOPPED, 0), (CUT, 0), (CUT, 3)] {
        for i in 0..3 {
            let mut ends = [(UNSAFE, 3); 3];
            ends[i] = other;
            assert_eq!(place(ends), None, "{ends:?}");
        }
        assert_eq!(place([other; 3]), Some(4).filter(|_| other.0 == UNSAFE), "{other:?}");
    }
}

#[test]
fn what_is_sat_replays_and_what_is_unsat_is_not_refuted() {
    let rules = rules();
    let [z3, cvc5] = thread::scope(|scope| {
        [Solver::Z3, Solver::Cvc5]
            .map(|solver| {
                scope.spawn({
                    let rules = &rules;
                    move || answers(rules, &solver)
                })
            })
            .map(|asked| asked.join().expect("the rules hold"))
    });
    for (rule, (z3, cvc5)) in rules.iter().zip(z3.iter().zip(&cvc5)) {
        let differ = z3.is_some() && cvc5.is_some() && z3 != cvc5;
        assert!(!differ, "z3 and cvc5 differ; {}", rule.name(&Solver::Z3));
    }
    for (solver, answers) in [("z3", &z3), ("cvc5", &cvc5)] {
        let [sat, unsat, undecided] = [Some(true), Some(false), None].map(|answer| count(answers, answer));
        println!("hit {solver}: {sat} sat, {unsat} unsat, {undecided} undecided");
        let (least, most) = (rules.len() as u64 * LEAST / 100, rules.len() as u64 * UNDECIDED / 100);
        assert!(sat >= least && unsat >= least && undecided <= most, "{solver}: {sat} sat, {unsat} unsat, {undecided}");
    }
}
