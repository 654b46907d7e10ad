//! Everything that is asked of generated cases: each call held to the model, and what the calls say of one another.

use crate::agreement;
use crate::answer::Answer;
use crate::archive::Calls;
use crate::case::{Case, JudgeCase, PrintCase, RunCase, ScriptCase, SliceCase, TraceCase};
use crate::check::{AnyCheck, Asked, Check};
use crate::generate;
use crate::solving;

pub const RUN: Check<RunCase> =
    Check { name: RunCase::NAME, count: 100_000, speaks_of: None, generate: generate::run_case, ask: ask_model };

pub const JUDGE: Check<JudgeCase> =
    Check { name: JudgeCase::NAME, count: 100_000, speaks_of: None, generate: generate::judge_case, ask: ask_model };

pub const TRACE: Check<TraceCase> =
    Check { name: TraceCase::NAME, count: 80_000, speaks_of: None, generate: generate::trace_case, ask: ask_model };

pub const SLICE: Check<SliceCase> =
    Check { name: SliceCase::NAME, count: 40_000, speaks_of: None, generate: generate::slice_case, ask: ask_model };

pub const SCRIPT: Check<ScriptCase> =
    Check { name: ScriptCase::NAME, count: 15_000, speaks_of: None, generate: generate::script_case, ask: ask_model };

/// Each case starts the program.
pub const PRINT: Check<PrintCase> =
    Check { name: PrintCase::NAME, count: 3_000, speaks_of: None, generate: generate::print_case, ask: ask_model };

pub const DEMAND_3: Check<RunCase> = Check {
    name: "demand3",
    count: 50_000,
    speaks_of: Some(("a trace and a right valuation", 90_000)),
    generate: generate::unwound_run_case,
    ask: agreement::demand_3,
};

pub const WITHIN: Check<RunCase> = Check {
    name: "within",
    count: 50_000,
    speaks_of: Some(("an unsafe run", 5_000)),
    generate: generate::run_case,
    ask: agreement::within,
};

pub const RAISED_RUNS: Check<RunCase> = Check {
    name: "raised-runs",
    count: 50_000,
    speaks_of: Some(("a run that is not cut, of a rule without a trace under 255", 2_000)),
    generate: generate::run_case,
    ask: agreement::raised_runs,
};

pub const RAISED_TRACES: Check<RunCase> = Check {
    name: "raised-traces",
    count: 20_000,
    speaks_of: Some(("a trace that is not cut, and one under a higher bound", 20_000)),
    generate: generate::unwound_run_case,
    ask: agreement::raised_traces,
};

pub const OLD_JUDGED: Check<JudgeCase> = Check {
    name: "old-judged",
    count: 40_000,
    speaks_of: Some(("an accepted trace of version 130 and a right valuation", 20_000)),
    generate: generate::sliced_judge_case,
    ask: agreement::old_judged,
};

pub const SLICE_JUDGED: Check<JudgeCase> = Check {
    name: "slice-judged",
    count: 40_000,
    speaks_of: Some(("an accepted trace and a right valuation", 50_000)),
    generate: generate::sliced_judge_case,
    ask: agreement::slice_judged,
};

pub const SLICE_UNREAD: Check<JudgeCase> = Check {
    name: "slice-unread",
    count: 40_000,
    speaks_of: Some(("an accepted trace, a right valuation and an input not read", 20_000)),
    generate: generate::sliced_judge_case,
    ask: agreement::slice_unread,
};

pub const SLICE_TWICE: Check<JudgeCase> = Check {
    name: "slice-twice",
    count: 40_000,
    speaks_of: Some(("an accepted trace", 50_000)),
    generate: generate::sliced_judge_case,
    ask: agreement::slice_twice,
};

/// Each case starts the program.
pub const PRINT_READ: Check<PrintCase> = Check {
    name: "print-read",
    count: 3_000,
    speaks_of: Some(("a slice", 30_000)),
    generate: generate::print_case,
    ask: agreement::print_read,
};

/// Each case starts both solvers.
pub const ACCEPTED: Check<ScriptCase> = Check {
    name: "accepted",
    count: 200,
    speaks_of: Some(("a script that can be satisfied", 30_000)),
    generate: generate::unpinned_script_case,
    ask: solving::accepted,
};

/// Each case starts both solvers.
pub const PINNED: Check<JudgeCase> = Check {
    name: "pinned",
    count: 1_000,
    speaks_of: Some(("an unsafe trace", 20_000)),
    generate: generate::pinned_judge_case,
    ask: solving::pinned,
};

/// Each case starts both solvers twice.
pub const SOLVED: Check<RunCase> = Check {
    name: "solved",
    count: 60,
    speaks_of: Some(("a solution", 20_000)),
    generate: generate::unpinned_run_case,
    ask: solving::solved,
};

/// The checks of the archive alone.
pub const OF_ARCHIVE: [&dyn AnyCheck; 13] = [
    &RUN,
    &JUDGE,
    &TRACE,
    &SLICE,
    &SCRIPT,
    &DEMAND_3,
    &WITHIN,
    &RAISED_RUNS,
    &RAISED_TRACES,
    &OLD_JUDGED,
    &SLICE_JUDGED,
    &SLICE_UNREAD,
    &SLICE_TWICE,
];

/// The checks of the archive that need both solvers.
pub const OF_SOLVERS: [&dyn AnyCheck; 3] = [&ACCEPTED, &PINNED, &SOLVED];

/// The checks of the slice printer.
pub const OF_PROGRAM: [&dyn AnyCheck; 2] = [&PRINT, &PRINT_READ];

fn ask_model<C: Case>(case: &C, calls: &dyn Calls) -> Asked {
    let expected = case.model();
    Asked { reply: C::reply(&expected), counts: true, wrong: case.ask(calls).differences(&expected) }
}
