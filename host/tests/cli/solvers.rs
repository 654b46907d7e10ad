//! Solvers that lie or fail, asked by the parts of the command.

use std::fs;
use std::path::Path;
use std::time::{Duration, Instant};

use host::solver::{Answer, Fault, Solver};

use crate::program::FOLDER;

const SCRIPT: &[u8] = b"(set-logic QF_BV)\n(declare-const s0 (_ BitVec 32))\n(check-sat)\n";
const SECOND: Duration = Duration::from_secs(1);
/// For what ends by itself, however busy the machine is.
const LONG: Duration = Duration::from_secs(60);

fn solver(name: &str) -> Solver {
    Solver::Program(Path::new(FOLDER).join("solvers").join(name))
}

fn fault(name: &str) -> Fault {
    solver(name).ask(SCRIPT, &["s0"], LONG).expect_err(name).fault
}

#[test]
fn both_solvers_answer_with_the_words_that_are_asked_for() {
    let script = b"(declare-const s0 (_ BitVec 32))(declare-const s1 (_ BitVec 32))\
        (assert (= s0 (bvadd s1 #x00000001)))(assert (= s1 #xfffffffe))(check-sat)";
    let script = [b"(set-logic QF_BV)", &script[..]].concat();
    for solver in [Solver::Z3, Solver::Cvc5] {
        let answer = solver.ask(&script, &["s1", "s0"], LONG).unwrap_or_else(|failure| panic!("{failure:?}"));
        let Answer::Sat { words, .. } = answer else { panic!("unsat") };
        assert_eq!(words, [u32::MAX - 1, u32::MAX], "{solver:?}");
        let never = [&script[..script.len() - b"(check-sat)".len()], b"(assert false)(check-sat)"].concat();
        for symbols in [&["s0"][..], &[]] {
            let answer = solver.ask(&never, symbols, LONG).unwrap_or_else(|failure| panic!("{failure:?}"));
            assert_eq!(answer, Answer::Unsat, "{solver:?}");
        }
    }
}

#[test]
fn an_error_before_the_answer_is_no_answer() {
    for solver in [Solver::Z3, Solver::Cvc5] {
        let failure = solver.ask(b"(assert nonsense)(check-sat)", &["s0"], LONG).expect_err("nonsense");
        assert!(matches!(failure.fault, Fault::Crashed(_) | Fault::Garbled), "{failure:?}");
        assert!(failure.output.contains("error"), "{failure:?}");
    }
}

#[test]
fn a_script_is_read_whole_by_a_solver_and_need_not_be_read_by_others() {
    let long = [SCRIPT, &b"; a comment\n".repeat(100_000)].concat();
    assert!(matches!(Solver::Z3.ask(&long, &["s0"], LONG), Ok(Answer::Sat { .. })));
    assert!(matches!(solver("lies").ask(&long, &["s0"], LONG), Ok(Answer::Sat { .. })));
}

#[test]
fn what_is_no_answer_in_every_letter_is_none() {
    for name in ["garbage", "nothing", "short", "wide", "other", "twice", "late-error"] {
        assert_eq!(fault(name), Fault::Garbled, "{name}");
    }
    assert_eq!(fault("unknown"), Fault::Unknown);
    assert_eq!(fault("endless"), Fault::Endless);
    for name in ["crash", "unsat-and-crash", "status"] {
        assert!(matches!(fault(name), Fault::Crashed(_)), "{name}");
    }
    assert!(matches!(fault("missing"), Fault::NotStarted(_)));
}

#[test]
fn a_silent_solver_is_ended_when_the_time_is_over() {
    let start = Instant::now();
    let failure = solver("silent-with-number").ask(SCRIPT, &["s0"], 3 * SECOND).expect_err("silent");
    assert_eq!(failure.fault, Fault::Silent(3 * SECOND));
    assert!((3 * SECOND..30 * SECOND).contains(&start.elapsed()), "{:?}", start.elapsed());
    let number = failure.errors.trim();
    assert!(!number.is_empty(), "it prints its number");
    assert!(!fs::exists(format!("/proc/{number}")).expect("/proc"), "process {number} is still there");
}

#[test]
fn a_solver_that_answers_and_goes_on_has_not_answered() {
    let failure = solver("lingers").ask(SCRIPT, &["s0"], SECOND).expect_err("lingers");
    assert_eq!(failure.fault, Fault::Silent(SECOND));
}
