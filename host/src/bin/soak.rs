//! Any number of generated cases for every check, of the archive, with solvers too, and of the slice printer. CASES
//! says how many, SEED where they begin, in place of the clock. CASE names one check, of which the case of SEED alone
//! is asked, or a call, of which the case KNOWN by that name is.

use std::collections::BTreeMap;
use std::env;
use std::process::ExitCode;
use std::time::{Duration, Instant, SystemTime, UNIX_EPOCH};

use host::archive::ARCHIVE;
use host::case::{Case, JudgeCase, PrintCase, RunCase, ScriptCase, SliceCase, TraceCase};
use host::cases::{judging, printing, running, scripting, slicing, unwinding, Known};
use host::check::{first_failing, seeds, AnyCheck, Asked};
use host::hold::{case_count, first_seed, hold_known};
use host::{checks, program, solving};

/// How many cases of each check are generated.
const CASES: u64 = 100_000;
/// Starting the program takes as long as so many cases of the archive.
const PROGRAM_COST: u64 = 20;
/// Asking solvers takes as long as so many cases of the archive.
const SOLVER_COST: u64 = 500;
/// How often progress is told.
const INTERVAL: Duration = Duration::from_secs(10);

fn main() -> ExitCode {
    let holds = match (env::var("CASE"), env::var("KNOWN")) {
        (Ok(case), Ok(name)) => repeat_known(&case, &name),
        (Ok(case), Err(_)) => repeat(&case),
        _ => soak(),
    };
    if holds {
        ExitCode::SUCCESS
    } else {
        ExitCode::FAILURE
    }
}

/// Goes on with the next check where one fails.
fn soak() -> bool {
    let seed = first_seed().unwrap_or_else(clock);
    let count = case_count(CASES);
    println!("soak: from seed {seed} on, where SEED={seed} begins again");
    soak_checks(Ok(()), &checks::OF_ARCHIVE, seed, count)
        & soak_checks(solving::find(), &checks::OF_SOLVERS, seed, count.div_ceil(SOLVER_COST))
        & soak_checks(program::find(), &checks::OF_PROGRAM, seed, count.div_ceil(PROGRAM_COST))
}

/// Checks that are not tried where what they need is not found.
fn soak_checks(found: Result<(), String>, checks: &[&dyn AnyCheck], seed: u64, count: u64) -> bool {
    if let Err(missing) = found {
        checks.iter().for_each(|check| println!("{}: not tried, as {missing}", check.name()));
        return true;
    }
    checks.iter().filter(|check| !soak_check(**check, seed, count)).count() == 0
}

fn soak_check(check: &dyn AnyCheck, seed: u64, count: u64) -> bool {
    let mut tally = Tally::new(check, count);
    let failing = first_failing(check, seeds(seed, count), ARCHIVE, |asked| tally.count(asked));
    match failing {
        Some(seed) => println!("{}", check.report(seed, ARCHIVE)),
        None => tally.print(),
    }
    failing.is_none()
}

/// A seed that hardly any soak has begun with.
fn clock() -> u64 {
    let now = SystemTime::now().duration_since(UNIX_EPOCH);
    now.map_or(1, |now| now.as_micros() as u64)
}

fn repeat(name: &str) -> bool {
    let mut all = checks::OF_ARCHIVE.into_iter().chain(checks::OF_SOLVERS).chain(checks::OF_PROGRAM);
    let check = all.find(|check| check.name() == name).unwrap_or_else(|| panic!("CASE names no check: {name}"));
    let seed = first_seed().expect("CASE asks for a SEED");
    let holds = check.ask_seed(seed, ARCHIVE).wrong.is_empty();
    if holds {
        println!("{name}: the case of seed {seed} holds");
    } else {
        println!("{}", check.report(seed, ARCHIVE));
    }
    holds
}

/// Fails with what differs.
fn repeat_known(case: &str, name: &str) -> bool {
    match case {
        RunCase::NAME => hold_named(running::all, name),
        JudgeCase::NAME => hold_named(judging::all, name),
        TraceCase::NAME => hold_named(unwinding::all, name),
        SliceCase::NAME => hold_named(slicing::all, name),
        ScriptCase::NAME => hold_named(scripting::all, name),
        PrintCase::NAME => hold_named(printing::all, name),
        _ => panic!("CASE names no call: {case}"),
    }
    true
}

/// Asks the model too.
fn hold_named<C: Case>(all: fn() -> Vec<Known<C>>, name: &str) {
    let named = || -> Vec<Known<C>> { all().into_iter().filter(|known| known.name == name).collect() };
    assert!(!named().is_empty(), "KNOWN names no case of {}: {name}", C::NAME);
    hold_known(C::model, named());
    hold_known(C::archive, named());
    println!("{}: {name}: the answer is the known one", C::NAME);
}

/// How many cases a check has been asked of, how many of these it speaks of, and how many have each reply.
struct Tally<'a> {
    check: &'a dyn AnyCheck,
    due: u64,
    spoken: u64,
    replies: BTreeMap<u32, u64>,
    start: Instant,
    told: Instant,
}

impl Tally<'_> {
    fn new(check: &dyn AnyCheck, due: u64) -> Tally<'_> {
        let start = Instant::now();
        Tally { check, due, spoken: 0, replies: BTreeMap::new(), start, told: start }
    }

    fn count(&mut self, asked: &Asked) {
        *self.replies.entry(asked.reply).or_insert(0) += 1;
        self.spoken += u64::from(asked.counts);
        if self.told.elapsed() > INTERVAL {
            self.told = Instant::now();
            let [total, due, seconds] = [self.total(), self.due, self.start.elapsed().as_secs()];
            println!("{}: {total} of {due} cases, {} %, {seconds} s", self.check.name(), 100 * total / due);
        }
    }

    fn total(&self) -> u64 {
        self.replies.values().sum()
    }

    fn print(&self) {
        let replies: Vec<String> = self.replies.iter().map(|(reply, count)| format!("{reply}: {count}")).collect();
        println!("{}: {} cases hold; by reply {}", self.check.name(), self.total(), replies.join(", "));
        if let Some((feature, _)) = self.check.speaks_of() {
            println!("{}: {} of them have {feature}", self.check.name(), self.spoken);
        }
    }
}
