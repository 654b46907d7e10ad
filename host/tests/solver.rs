//! What z3 and cvc5 say of scripts: that they are asked and understood, that they accept what the archive writes, and
//! that their answers are what judging and running say.

use std::time::Duration;

use host::archive::ARCHIVE;
use host::case::{JudgeCase, ScriptCase};
use host::cases::scripting as cases;
use host::check::{first_failing, AnyCheck, Asked};
use host::checks;
use host::encoding;
use host::hold::{hold, hold_features, hold_hits, test_seeds, Hits};
use host::model::{self, JudgeAnswer, ScriptAnswer};
use host::parts::{has_opening, Parts};
use host::solver::{Fault, Solver};
use host::solving::{decide, decide_all, due, pin, solve, with_zero_remainders, Says};
use host::verdict::{self, ENDED, UNSAFE};
use host::written::{whole_within, Written, SCRIPT_ROOM};

const ASSIGN: u8 = 1;
const ASSERT: u8 = 3;
const BOUND: u8 = 4;

/// How many scripts a solver is given in one go.
const BATCH: usize = 50;

/// What scripts that are not pinned have to show, so many of 100,000.
const ACCEPTED_DUE: [(&str, u64); 3] = [("written", 10_000), ("sliced", 5_000), ("of no table", 20_000)];

/// What pinned scripts have to show, so many of 100,000.
const PINNED_DUE: [(&str, u64); 20] = [
    ("written", 10_000),
    ("written, unsafe", 2_000),
    ("written, ended", 2_000),
    ("written, stopped", 200),
    ("written, cut", 2_000),
    ("sliced", 10_000),
    ("sliced, unsafe", 2_000),
    ("sliced, ended", 2_000),
    ("sliced, cut", 1_000),
    ("of no table", 20_000),
    ("of no table, unsafe", 5_000),
    ("of no table, ended", 2_000),
    ("of no table, stopped", 2_000),
    ("of no table, cut", 1_000),
    ("version 129", 5_000),
    ("a bound before an Assert", 10_000),
    ("an Assign behind the first false test", 10_000),
    ("slot 10 or above", 20_000),
    ("urem", 20_000),
    ("no Assert", 2_000),
];

/// s0 is 5, s1 is 2^32 - 2.
const TWO_INPUTS: &[u8] = b"(set-logic QF_BV)
(declare-const s0 (_ BitVec 32))
(declare-const s1 (_ BitVec 32))
(assert (= s0 #x00000005))
(assert (= s1 (bvnot #x00000001)))
(check-sat)
";
const NONE: &[u8] = b"(set-logic QF_BV)\n(assert\nfalse)\n(check-sat)\n";
const ANY: &[u8] = b"(set-logic QF_BV)\n(assert true)\n(check-sat)\n";
/// The two primes below 2^64 whose product is given.
const HARD: &[u8] = b"(set-logic QF_BV)
(declare-const a (_ BitVec 64))
(declare-const b (_ BitVec 64))
(assert (= (bvmul ((_ zero_extend 64) a) ((_ zero_extend 64) b)) #x775b80612466740efff2f5585e2026db))
(assert (bvult a b))
(check-sat)
";

#[test]
fn scripts_are_answered_alone_and_together() {
    for solver in Solver::ALL {
        assert_eq!(decide(&solver, TWO_INPUTS), Ok(Says::Sat));
        assert_eq!(decide(&solver, NONE), Ok(Says::Unsat));
        let answers = decide_all(&solver, &[NONE, TWO_INPUTS, TWO_INPUTS, NONE, ANY]);
        assert_eq!(answers, Ok(vec![Says::Unsat, Says::Sat, Says::Sat, Says::Unsat, Says::Sat]));
        assert_eq!(decide_all::<&[u8]>(&solver, &[]), Ok(vec![]));
    }
}

#[test]
fn inputs_are_read_in_the_digits_of_either_solver() {
    for solver in Solver::ALL {
        assert_eq!(solve(&solver, TWO_INPUTS, 2), Ok(Some(vec![5, u32::MAX - 1])));
        assert_eq!(solve(&solver, ANY, 0), Ok(Some(vec![])));
        assert_eq!(solve(&solver, NONE, 0), Ok(None));
    }
}

#[test]
fn what_is_printed_instead_of_an_answer_is_said() {
    let unknown = [b"(assert (= s0 s0))\n", TWO_INPUTS].concat();
    for solver in Solver::ALL {
        for complaint in [decide(&solver, &unknown).map(drop), solve(&solver, TWO_INPUTS, 3).map(drop)] {
            let complaint = complaint.expect_err("no answer");
            assert!(complaint.contains(&solver.name()) && complaint.contains("error"), "{complaint}");
        }
        let none = decide_all(&solver, &[&b""[..], ANY]).expect_err("one answer for two");
        assert!(none.contains("prints 1 lines"), "{none}");
    }
}

#[test]
fn a_solver_is_ended_when_its_time_is_over() {
    for solver in Solver::ALL {
        let failure = solver.ask::<&str>(HARD, &[], Duration::from_secs(1)).expect_err("no answer");
        assert_eq!(failure.fault, Fault::Silent(Duration::from_secs(1)));
    }
}

#[test]
fn the_documents_example_is_unsafe_for_0_alone() {
    let script = cases::example().as_bytes();
    for solver in Solver::ALL {
        assert_eq!(solve(&solver, script, 1), Ok(Some(vec![0])));
        assert_eq!(decide(&solver, &pin(script, &encoding::valuation(&[0]))), Ok(Says::Sat));
        assert_eq!(decide(&solver, &pin(script, &encoding::valuation(&[1]))), Ok(Says::Unsat));
    }
}

#[test]
fn both_solvers_answer_every_script_and_alike() {
    hold(&checks::ACCEPTED);
}

#[test]
fn the_scripts_to_be_answered_are_of_written_of_sliced_and_of_free_traces() {
    hold_features(
        &checks::ACCEPTED,
        |case: &ScriptCase, _: Written<ScriptAnswer>| vec![origin(&case.trace).into()],
        &[],
        &ACCEPTED_DUE,
    );
}

#[test]
fn z3_satisfies_a_pinned_script_exactly_where_its_trace_is_unsafe() {
    hold_pinned(&Solver::Z3);
}

#[test]
fn cvc5_satisfies_a_pinned_script_exactly_where_its_trace_is_unsafe() {
    hold_pinned(&Solver::Cvc5);
}

#[test]
fn the_pinned_scripts_reach_every_verdict_of_every_kind_of_trace_and_every_trap() {
    hold_features(&checks::PINNED, pinned_features, &[], &PINNED_DUE);
}

#[test]
fn a_remainder_by_zero_decides_some_of_the_pinned_scripts() {
    let seeds: Vec<u64> = test_seeds(checks::PINNED.count).collect();
    let mut cases = 0;
    for seeds in seeds.chunks(BATCH) {
        let (due, scripts) = asked(seeds);
        let changed: Vec<String> = scripts.iter().map(|script| with_zero_remainders(script)).collect();
        let answers = decide_all(&Solver::Z3, &changed).unwrap_or_else(|complaint| panic!("{complaint}"));
        cases += due.iter().zip(answers).filter(|(due, answer)| *due != answer).count() as u64;
    }
    hold_hits(&checks::PINNED, [Hits { feature: "decided by a remainder by zero".into(), cases, least: 1_000 }]);
}

#[test]
fn a_solution_is_unsafe_in_run_trace_and_slice_and_where_there_is_none_no_words_are() {
    let [mut sat, mut unsat] = [0, 0];
    let tell = |asked: &Asked| *(if asked.counts { &mut sat } else { &mut unsat }) += 1;
    if let Some(seed) = first_failing(&checks::SOLVED, test_seeds(checks::SOLVED.count), ARCHIVE, tell) {
        panic!("{}", checks::SOLVED.report(seed, ARCHIVE));
    }
    let hits = [("a solution", sat), ("no solution", unsat)];
    hold_hits(&checks::SOLVED, hits.map(|(feature, cases)| Hits { feature: feature.into(), cases, least: 20_000 }));
}

#[test]
fn the_longest_script_has_3997314_letters_and_both_solvers_answer_it() {
    let trace = cases::longest();
    let script = ARCHIVE.whole_script(&trace);
    assert_eq!(script.len(), 3_997_314);
    assert!(script.len() <= SCRIPT_ROOM);
    hold_solution(&Solver::Z3, &trace);
    for solver in Solver::ALL {
        hold_pins(&solver, &trace, &[[7; 64]]);
    }
}

#[test]
fn the_room_for_every_script_is_the_headers() {
    let header = include_str!("../../include/kadvitul.h");
    assert!(header.contains(&format!("\n#define KADVITUL_SCRIPT_ROOM {SCRIPT_ROOM}\n")));
}

#[test]
fn both_solvers_answer_4096_nested_tests() {
    let trace = cases::most_tests();
    hold_solution(&Solver::Z3, &trace);
    for solver in Solver::ALL {
        hold_pins(&solver, &trace, &[[4094], [4095], [4096], [2]]);
    }
}

#[test]
fn both_solvers_answer_an_expression_of_65001_tokens() {
    let trace = cases::most_tokens();
    for solver in Solver::ALL {
        hold_solution(&solver, &trace);
        hold_pins(&solver, &trace, &[[0], [1]]);
    }
}

/// A solution is there, and is unsafe.
fn hold_solution(solver: &Solver, trace: &[u8]) {
    let solution = solve(solver, &ARCHIVE.whole_script(trace), trace[3]);
    let words = solution.unwrap_or_else(|complaint| panic!("{complaint}")).expect("a solution");
    assert_eq!(ARCHIVE.judge(trace, &encoding::valuation(&words)).verdict, UNSAFE, "{words:?}");
}

/// Pinned to each of several valuations, the answer is what judging says.
fn hold_pins<const N: usize>(solver: &Solver, trace: &[u8], valuations: &[[u32; N]]) {
    let script = ARCHIVE.whole_script(trace);
    let cases =
        valuations.iter().map(|words| JudgeCase { trace: trace.to_vec(), valuation: encoding::valuation(words) });
    let (due, scripts): (Vec<_>, Vec<_>) =
        cases.map(|case| (due(&case, ARCHIVE), pin(&script, &case.valuation))).unzip();
    assert_eq!(decide_all(solver, &scripts), Ok(due), "{} of {valuations:?}", solver.name());
}

/// Asks a solver of many cases in one go; where it fails it is asked again, of one case after another.
fn hold_pinned(solver: &Solver) {
    let seeds: Vec<u64> = test_seeds(checks::PINNED.count).collect();
    for seeds in seeds.chunks(BATCH) {
        let (due, scripts) = asked(seeds);
        let answers = decide_all(solver, &scripts);
        if answers != Ok(due) {
            let failing = first_failing(&checks::PINNED, seeds.iter().copied(), ARCHIVE, |_| {});
            let report = failing.map(|seed| checks::PINNED.report(seed, ARCHIVE));
            panic!("{}", report.unwrap_or_else(|| format!("seeds {seeds:?} fail together, not alone: {answers:?}")));
        }
    }
}

/// For each seed what is due, and the pinned script.
fn asked(seeds: &[u64]) -> (Vec<Says>, Vec<String>) {
    let cases = seeds.iter().map(|seed| (checks::PINNED.generate)(*seed));
    let asked = cases.map(|case| {
        let script = pin(&ARCHIVE.whole_script(&case.trace), &case.valuation);
        (due(&case, ARCHIVE), String::from_utf8(script).expect("a text"))
    });
    asked.unzip()
}

/// What a pinned case shows, in the words of `PINNED_DUE`.
fn pinned_features(case: &JudgeCase, answer: JudgeAnswer) -> Vec<String> {
    let [origin, verdict] = [origin(&case.trace), verdict::name(answer.verdict)];
    let kinds = kinds(&case.trace);
    let last_assert = kinds.iter().rposition(|kind| *kind == ASSERT);
    let script = model_script(&case.trace);
    let shown = [
        (true, origin.into()),
        (true, format!("{origin}, {verdict}")),
        (true, format!("version {}", case.trace[0])),
        (last_assert.is_none(), "no Assert".into()),
        (kinds[..last_assert.unwrap_or(0)].contains(&BOUND), "a bound before an Assert".into()),
        (behind_first_false(case, &kinds).contains(&ASSIGN), "an Assign behind the first false test".into()),
        ((10..17).any(|slot| script.contains(&format!("((x{slot} "))), "slot 10 or above".into()),
        (script.contains("(bvurem "), "urem".into()),
    ];
    shown.into_iter().filter(|(is_shown, _)| *is_shown).map(|(_, feature)| feature).collect()
}

/// Of a right trace. A written one ends with an exit, and a slice of one with an Assert.
fn origin(trace: &[u8]) -> &'static str {
    match kinds(trace).last() {
        Some(&ASSIGN) if has_opening(trace) => "written",
        Some(&ASSERT) if has_opening(trace) => "sliced",
        _ => "of no table",
    }
}

fn kinds(trace: &[u8]) -> Vec<u8> {
    Parts::of(trace).expect("a whole header").records.iter().map(|statement| statement[0]).collect()
}

/// The kinds of the statements behind the one that decides; none where the judging ends.
fn behind_first_false<'a>(case: &JudgeCase, kinds: &'a [u8]) -> &'a [u8] {
    let parts = Parts::of(&case.trace).expect("a whole header");
    let ends = |count: &usize| {
        let mut first = parts.clone();
        first.records.truncate(*count);
        model::judge(&first.join(), &case.valuation).verdict == ENDED
    };
    let counts: Vec<usize> = (1..=kinds.len()).collect();
    let passed = counts.partition_point(ends);
    kinds.get(passed + 1..).unwrap_or(&[])
}

fn model_script(trace: &[u8]) -> String {
    let script = whole_within(SCRIPT_ROOM, |out| model::script(trace, out).length);
    String::from_utf8(script).expect("a text")
}
