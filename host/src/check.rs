//! A check: one question asked of generated cases. Its name and a seed repeat a case.

use crate::archive::Calls;
use crate::case::Case;
use crate::command;
use crate::shrink::shrink;

pub struct Check<C: Case> {
    pub name: &'static str,
    /// How many cases the test generates.
    pub count: u64,
    /// What it speaks of, if not of every case, and in how many of 100,000 cases it has to.
    pub speaks_of: Option<(&'static str, u64)>,
    pub generate: fn(u64) -> C,
    pub ask: fn(&C, &dyn Calls) -> Asked,
}

/// What a case showed.
pub struct Asked {
    pub reply: u32,
    /// Whether the check speaks of the case.
    pub counts: bool,
    /// A line for each thing that is wrong.
    pub wrong: Vec<String>,
}

/// A check of whatever kind of case.
pub trait AnyCheck {
    fn name(&self) -> &'static str;

    fn count(&self) -> u64;

    fn speaks_of(&self) -> Option<(&'static str, u64)>;

    fn ask_seed(&self, seed: u64, calls: &dyn Calls) -> Asked;

    /// On the failing case of a seed: how it is repeated, what it is when made smaller, and what is wrong then.
    fn report(&self, seed: u64, calls: &dyn Calls) -> String;
}

impl<C: Case> AnyCheck for Check<C> {
    fn name(&self) -> &'static str {
        self.name
    }

    fn count(&self) -> u64 {
        self.count
    }

    fn speaks_of(&self) -> Option<(&'static str, u64)> {
        self.speaks_of
    }

    fn ask_seed(&self, seed: u64, calls: &dyn Calls) -> Asked {
        (self.ask)(&(self.generate)(seed), calls)
    }

    fn report(&self, seed: u64, calls: &dyn Calls) -> String {
        let wrong = |case: &C| (self.ask)(case, calls).wrong;
        let small = shrink((self.generate)(seed), |case| !wrong(case).is_empty());
        let command = command::seeded(self.name, seed);
        let wrong = wrong(&small).join("\n");
        format!(
            "{}: the case of seed {seed} fails; repeat it with\n{command}\n{wrong}\nmade smaller:\n{small}",
            self.name
        )
    }
}

pub fn seeds(first: u64, count: u64) -> impl Iterator<Item = u64> {
    (0..count).map(move |i| first.wrapping_add(i))
}

/// The first of the seeds whose case fails; `tell` hears of every case.
pub fn first_failing(
    check: &dyn AnyCheck,
    mut seeds: impl Iterator<Item = u64>,
    calls: &dyn Calls,
    mut tell: impl FnMut(&Asked),
) -> Option<u64> {
    seeds.find(|&seed| {
        let asked = check.ask_seed(seed, calls);
        tell(&asked);
        !asked.wrong.is_empty()
    })
}
