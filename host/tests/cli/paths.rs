//! The way of a run that `graph` marks, held to runs of tables in which an instruction is replaced by one that fails: a
//! run that comes to it is unsafe there.

use host::cli::ending::instruction_at_end;
use host::cli::path;
use host::cli::proved;
use host::cli::rule::{Action, Rule};
use host::encoding;
use host::generate;
use host::parts::Parts;
use host::verdict::{name, CUT, ENDED, STOPPED, UNSAFE};

const CASES: u64 = 1_000;
/// Of longer traces the way takes long to find.
const TRACE_LIMIT: usize = 8_000;
const ASSERT_0: [u8; 6] = [3, 1, 0, 0, 0, 0];

struct Case {
    seed: u64,
    rule: Rule,
    bound: u64,
    words: Vec<u32>,
    run: proved::Run,
    path: Vec<usize>,
}

/// Those with a right valuation and a trace that is not long.
fn cases() -> Vec<Case> {
    (1..=CASES).filter_map(case).collect()
}

fn case(seed: u64) -> Option<Case> {
    let case = generate::unwound_run_case(seed);
    let words: Vec<u32> =
        case.valuation.chunks_exact(4).map(|b| u32::from_be_bytes([b[0], b[1], b[2], b[3]])).collect();
    if encoding::valuation(&words) != case.valuation {
        return None;
    }
    let rule = Rule::of(case.table).ok()?;
    let run = proved::run(&rule.table, case.bound, &words).ok()?;
    proved::trace(&rule.table, run.back_jumps.into()).ok().filter(|trace| trace.len() < TRACE_LIMIT)?;
    let path = path::of(&rule, &words, &run).ok()?.expect("a way that ends as the run does");
    Some(Case { seed, rule, bound: case.bound, words, run, path })
}

/// How many back jumps a run has taken when it first comes to an instruction, if it does.
fn first_visit(case: &Case, i: usize) -> Option<u32> {
    let mut parts = Parts::of(&case.rule.table).expect("a header");
    parts.records[i] = ASSERT_0.to_vec();
    let run = proved::run(&parts.join(), case.bound, &case.words).expect("an accepted table");
    run.end.unsafe_place().filter(|place| case.rule.at(*place).0 == i).map(|_| run.back_jumps)
}

/// The same by the way.
fn first_on_path(case: &Case, i: usize) -> Option<u32> {
    let visit = case.path.iter().position(|step| *step == i)?;
    Some(case.path[..=visit].windows(2).filter(|step| step[1] <= step[0]).count() as u32)
}

#[test]
fn the_way_comes_to_the_instructions_that_a_run_comes_to() {
    let mut visited = 0;
    for case in cases() {
        for i in 0..case.rule.instruction_count() {
            let expected = first_visit(&case, i);
            assert_eq!(first_on_path(&case, i), expected, "seed {}, instruction {i}, {:?}", case.seed, case.path);
            visited += u32::from(expected.is_some());
        }
    }
    assert!(visited > 1_000, "{visited} instructions are visited");
}

#[test]
fn the_way_goes_from_an_instruction_to_the_next_or_to_a_jumps_target() {
    let mut taken = 0;
    for case in cases() {
        assert_eq!(case.path.first(), Some(&0), "seed {}", case.seed);
        for step in case.path.windows(2) {
            let instruction = case.rule.instruction(step[0]).expect("no step leaves the end");
            let target = if let Action::Jump(target) = instruction.action { Some(target.into()) } else { None };
            assert!(step[1] == step[0] + 1 || Some(step[1]) == target, "seed {}, {step:?}", case.seed);
            taken += u32::from(step[1] != step[0] + 1);
        }
        let back_jumps = case.path.windows(2).filter(|step| step[1] <= step[0]).count();
        assert_eq!(back_jumps, case.run.back_jumps as usize, "seed {}", case.seed);
    }
    assert!(taken > 200, "{taken} jumps are taken");
}

#[test]
fn a_run_ends_where_its_way_does() {
    let mut ends = [0; 4];
    for case in cases() {
        let last = *case.path.last().expect("a step");
        let due = Some(last).filter(|last| *last < case.rule.instruction_count());
        let told = instruction_at_end(&case.rule, case.bound, &case.words, &case.run);
        assert_eq!(told, due, "seed {}, {}", case.seed, name(case.run.end.verdict));
        ends[case.run.end.verdict as usize] += 1;
    }
    for verdict in [ENDED, UNSAFE, STOPPED, CUT] {
        assert!(ends[verdict as usize] >= 20, "{} are {}", ends[verdict as usize], name(verdict));
    }
}
