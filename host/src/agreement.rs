//! What the calls say of one another. Demand 3 and request 2026-01: run and judged trace agree on verdict and place, a judged
//! slice on unsafe or not and the place, and for these only inputs that the slice reads matter; request 2026-13: what a
//! higher bound changes; then what slices are for, and the text that is printed of them.

use crate::archive::Calls;
use crate::case::{Case, JudgeCase, PrintCase, RunCase};
use crate::check::Asked;
use crate::listing;
use crate::parts::as_old_trace;
use crate::verdict::{CUT, ENDED, STOPPED, UNSAFE};

/// Other words for an input that is not read.
const CHANGES: [fn(u32) -> u32; 3] = [|word| !word, |word| word ^ 1, |_| 0];

#[derive(Clone, Copy, Debug, PartialEq, Eq)]
struct Judgement {
    reply: u32,
    verdict: u32,
    place: u32,
}

impl Judgement {
    /// What is left where nothing but unsafe or not matters.
    fn unsafe_or_not(self) -> Judgement {
        let verdict = if self.verdict == UNSAFE { UNSAFE } else { ENDED };
        Judgement { verdict, ..self }
    }

    /// How a trace of version 129 shows it.
    fn shown_by_old_trace(self) -> Judgement {
        let verdict = if self.verdict == CUT { STOPPED } else { self.verdict };
        Judgement { verdict, ..self }
    }

    /// A line where the judgements differ.
    fn difference(self, what: &str, expected: Judgement) -> Option<String> {
        (self != expected).then(|| format!("{what}: {self:?}, not {expected:?}"))
    }
}

/// It says nothing where there is no trace, or the valuation is not of the right length.
pub fn demand_3(case: &RunCase, calls: &dyn Calls) -> Asked {
    let expected = run(case, calls);
    let trace = calls.whole_trace(&case.table, case.bound);
    if trace.is_empty() {
        return Asked { reply: expected.reply, counts: false, wrong: vec![] };
    }
    let slice = calls.whole_slice(&trace);
    let judged_as = |run: Judgement, valuation: &[u8]| {
        let [of_trace, of_slice] = [&trace, &slice].map(|trace| judge(trace, valuation, calls));
        let of_slice = of_slice.unsafe_or_not().difference("judged slice, unsafe or not", run.unsafe_or_not());
        of_trace.difference("judged trace", run).into_iter().chain(of_slice)
    };
    let of_old_trace = judge(&as_old_trace(&trace), &case.valuation, calls);
    let of_old_trace = of_old_trace.difference("judged trace of version 129", expected.shown_by_old_trace());
    let mut wrong: Vec<String> = judged_as(expected, &case.valuation).chain(of_old_trace).collect();
    for changed in unread_changed(case, calls.mask(&trace)) {
        let run = run(&changed, calls);
        let difference = run.unsafe_or_not().difference("run, unread inputs changed", expected.unsafe_or_not());
        wrong.extend(difference.into_iter().chain(judged_as(run, &changed.valuation)));
    }
    Asked { reply: expected.reply, counts: expected.reply == 0, wrong }
}

/// An unsafe run took no more back jumps than its bound, and its place is that of an instruction in the copy of so many;
/// a cut run took as many as its bound. All but unsafe have place 0. It says nothing of a refused case.
pub fn within(case: &RunCase, calls: &dyn Calls) -> Asked {
    let Judgement { reply, verdict, place } = run(case, calls);
    if reply != 0 {
        return Asked { reply, counts: false, wrong: vec![] };
    }
    let back_jumps = calls.run_back_jumps(&case.table, case.bound, &case.valuation);
    let n = u32::from(u16::from_be_bytes([case.table[4], case.table[5]]));
    let first = back_jumps * (n + 1);
    let is_right = match verdict {
        UNSAFE => u64::from(back_jumps) <= case.bound && (first..first + n).contains(&place),
        CUT => u64::from(back_jumps) == case.bound && place == 0,
        ENDED | STOPPED => u64::from(back_jumps) <= case.bound && place == 0,
        _ => false,
    };
    let line = || format!("verdict {verdict} at {place} after {back_jumps} back jumps under {}, n={n}", case.bound);
    Asked { reply, counts: verdict == UNSAFE, wrong: if is_right { vec![] } else { vec![line()] } }
}

/// Bounds above one that a call takes.
fn higher_bounds(bound: u64) -> Vec<u64> {
    [bound + 1, 2 * bound + 3, 255].into_iter().filter(|&higher| bound < higher && higher <= 255).collect()
}

/// A run that is not cut gives the very same answer under every higher bound. It speaks of those for which a trace under the
/// highest bound can't be written; traces are for `raised_traces`.
pub fn raised_runs(case: &RunCase, calls: &dyn Calls) -> Asked {
    let RunCase { table, bound, valuation } = case;
    let lower = calls.run(table, *bound, valuation);
    let higher_bounds = higher_bounds(*bound);
    if lower.reply != 0 || lower.verdict == CUT || higher_bounds.is_empty() {
        return Asked { reply: lower.reply, counts: false, wrong: vec![] };
    }
    let changed = |&higher: &u64| {
        let answer = calls.run(table, higher, valuation);
        (answer != lower).then(|| format!("under {higher}: {answer:?}, not {lower:?}"))
    };
    let is_unwritable = calls.whole_trace(table, 255).is_empty();
    Asked { reply: 0, counts: is_unwritable, wrong: higher_bounds.iter().filter_map(changed).collect() }
}

/// Of a trace under a bound and one under a higher one: judged, the higher gives what the lower gives, unless that is cut; its
/// slice is violated where the lower one's is. It says nothing where one of them can't be written.
pub fn raised_traces(case: &RunCase, calls: &dyn Calls) -> Asked {
    let RunCase { table, bound, valuation } = case;
    let trace = |bound| Some(calls.whole_trace(table, bound)).filter(|trace| !trace.is_empty());
    let highers: Vec<Vec<u8>> = higher_bounds(*bound).into_iter().filter_map(trace).collect();
    let lower = trace(*bound).unwrap_or_default();
    let expected = calls.judge(&lower, valuation);
    if expected.reply != 0 || expected.verdict == CUT || highers.is_empty() {
        return Asked { reply: expected.reply, counts: false, wrong: vec![] };
    }
    let of_lower_slice = judge(&calls.whole_slice(&lower), valuation, calls).unsafe_or_not();
    let mut wrong = vec![];
    for higher in &highers {
        let answer = calls.judge(higher, valuation);
        if answer != expected {
            wrong.push(format!("under a higher bound: {answer:?}, not {expected:?}"));
        }
        let of_slice = judge(&calls.whole_slice(higher), valuation, calls).unsafe_or_not();
        wrong.extend(of_slice.difference("the slice under a higher bound", of_lower_slice));
    }
    Asked { reply: 0, counts: true, wrong }
}

/// A slice is unsafe where its trace is, at its place, or not at all.
pub fn slice_judged(case: &JudgeCase, calls: &dyn Calls) -> Asked {
    let slice = calls.whole_slice(&case.trace);
    let others = if slice.is_empty() { vec![] } else { vec![JudgeCase { trace: slice, ..case.clone() }] };
    judged_alike(case, others, calls)
}

/// Inputs that a slice does not read change neither whether its trace is unsafe nor the place.
pub fn slice_unread(case: &JudgeCase, calls: &dyn Calls) -> Asked {
    judged_alike(case, unread_changed(case, calls.mask(&case.trace)), calls)
}

/// Unsafe or not, and the place. It says nothing of a refused case, or one without others.
fn judged_alike(case: &JudgeCase, others: Vec<JudgeCase>, calls: &dyn Calls) -> Asked {
    let judged = |case: &JudgeCase| judge(&case.trace, &case.valuation, calls).unsafe_or_not();
    let expected = judged(case);
    let wrong = others.iter().filter_map(|other| judged(other).difference("unsafe or not", expected)).collect();
    Asked { reply: expected.reply, counts: expected.reply == 0 && !others.is_empty(), wrong }
}

/// An accepted trace of version 130 and the same in version 129, where a cut shows as stopped. It says nothing of others.
pub fn old_judged(case: &JudgeCase, calls: &dyn Calls) -> Asked {
    let judgement = judge(&case.trace, &case.valuation, calls);
    let old_trace = as_old_trace(&case.trace);
    if judgement.reply != 0 || old_trace == case.trace {
        return Asked { reply: judgement.reply, counts: false, wrong: vec![] };
    }
    let [old_slice, sliced] = [calls.whole_slice(&old_trace), as_old_trace(&calls.whole_slice(&case.trace))];
    let mut wrong = vec![];
    if old_slice != sliced || calls.mask(&old_trace) != calls.mask(&case.trace) {
        wrong.push("the slice of version 129 is another".into());
    }
    let judged = judge(&old_trace, &case.valuation, calls);
    wrong.extend(judged.difference("judged in version 129", judgement.shown_by_old_trace()));
    Asked { reply: 0, counts: true, wrong }
}

/// Slicing a slice changes nothing.
pub fn slice_twice(case: &JudgeCase, calls: &dyn Calls) -> Asked {
    let slice = calls.whole_slice(&case.trace);
    let [again, once] = [&slice, &case.trace].map(|trace| (calls.whole_slice(trace), calls.mask(trace)));
    let mut wrong = vec![];
    if again != once {
        wrong.push("slicing the slice gives another slice or mask".into());
    }
    Asked { reply: calls.slice_reply(&case.trace, &mut vec![0; case.trace.len()]), counts: !slice.is_empty(), wrong }
}

/// What the program prints, read back, is the slice that the archive writes.
pub fn print_read(case: &PrintCase, calls: &dyn Calls) -> Asked {
    let printed = case.ask(calls);
    let reply = PrintCase::reply(&printed);
    let trace = calls.whole_trace(&case.table, case.bound.expect("generated cases have a bound"));
    if trace.is_empty() {
        return Asked { reply, counts: false, wrong: vec![] };
    }
    let mut wrong = vec![];
    if !is_text_of(&calls.whole_slice(&trace), &printed.text) {
        wrong.push("the text read back is not the slice".into());
    }
    Asked { reply, counts: true, wrong }
}

fn is_text_of(slice: &[u8], text: &[u8]) -> bool {
    let text = String::from_utf8_lossy(text);
    let lines: Vec<&str> = text.lines().collect();
    let (Some((first, statements)), Some(&[_, _, _, inputs, high, low])) = (lines.split_first(), slice.first_chunk())
    else {
        return false;
    };
    let count = u16::from_be_bytes([high, low]);
    *first == format!("inputs {inputs} statements {count}")
        && listing::read(inputs, statements).is_ok_and(|trace| trace == slice)
}

fn run(RunCase { table, bound, valuation }: &RunCase, calls: &dyn Calls) -> Judgement {
    Judgement {
        reply: calls.run_reply(table, *bound, valuation),
        verdict: calls.run_verdict(table, *bound, valuation),
        place: calls.run_place(table, *bound, valuation),
    }
}

fn judge(trace: &[u8], valuation: &[u8], calls: &dyn Calls) -> Judgement {
    Judgement {
        reply: calls.judge_reply(trace, valuation),
        verdict: calls.judge_verdict(trace, valuation),
        place: calls.judge_place(trace, valuation),
    }
}

/// The case with other words for the inputs outside the mask, in several ways; none if there is no such input.
fn unread_changed<C: Case>(case: &C, mask: u64) -> Vec<C> {
    CHANGES.iter().filter_map(|change| change_unread(case, mask, *change)).collect()
}

fn change_unread<C: Case>(case: &C, mask: u64, change: fn(u32) -> u32) -> Option<C> {
    let mut changed = case.clone();
    let valuation = changed.valuation_mut().map_or(&mut [][..], |valuation| &mut valuation[..]);
    let mut is_changed = false;
    for (s, bytes) in valuation.chunks_exact_mut(4).enumerate().take(64) {
        if mask >> s & 1 == 0 {
            let word = u32::from_be_bytes([bytes[0], bytes[1], bytes[2], bytes[3]]);
            bytes.copy_from_slice(&change(word).to_be_bytes());
            is_changed = true;
        }
    }
    is_changed.then_some(changed)
}
