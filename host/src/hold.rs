//! Holds calls to known answers, the archive to checks of generated cases, and these cases to what they have to show.
//!
//! The variable CASES sets how many are generated, in place of a test's own count, and SEED where they begin.

use std::collections::BTreeMap;
use std::env;
use std::io::{self, Write};
use std::iter;

use crate::answer::Answer;
use crate::archive::ARCHIVE;
use crate::broken::Way;
use crate::case::Case;
use crate::cases::Known;
use crate::check::{first_failing, seeds, AnyCheck, Asked, Check};
use crate::command;

pub fn hold_known<C: Case>(call: fn(&C) -> C::Answer, known: Vec<Known<C>>) {
    for Known { name, case, answer } in known {
        let differences = call(&case).differences(&answer);
        let command = command::known(C::NAME, &name);
        assert!(differences.is_empty(), "{name}; repeat it with\n{command}\n{}\n{case}", differences.join("\n"));
    }
}

/// Holds the archive to a check, which has to speak of enough cases.
pub fn hold(check: &dyn AnyCheck) {
    let mut spoken = 0;
    let tell = |asked: &Asked| spoken += u64::from(asked.counts);
    if let Some(seed) = first_failing(check, test_seeds(check.count()), ARCHIVE, tell) {
        panic!("{}", check.report(seed, ARCHIVE));
    }
    let hits = check.speaks_of().map(|(feature, least)| Hits { feature: feature.into(), cases: spoken, least });
    hold_hits(check, hits);
}

/// Of 100,000 generated cases so many have to have each reply.
const REPLY_LEAST: u64 = 200;

/// Asks of a check's cases what is due: each of the replies, as the feature "reply 5", and each feature in so many of 100,000
/// cases.
pub fn hold_features<C: Case>(
    check: &Check<C>,
    features: fn(&C, C::Answer) -> Vec<String>,
    replies: &[u32],
    due: &[(&str, u64)],
) {
    let mut shown = BTreeMap::new();
    for case in test_seeds(check.count).map(check.generate) {
        let answer = case.model();
        let reply = format!("reply {}", C::reply(&answer));
        for feature in iter::once(reply).chain(features(&case, answer)) {
            *shown.entry(feature).or_insert(0) += 1;
        }
    }
    println!("{shown:#?}");
    let replies = replies.iter().map(|reply| (format!("reply {reply}"), REPLY_LEAST));
    let due = replies.chain(due.iter().map(|(feature, least)| (feature.to_string(), *least)));
    hold_hits(
        check,
        due.map(|(feature, least)| Hits { cases: shown.get(&feature).copied().unwrap_or(0), feature, least }),
    );
}

/// Of 100,000 generated cases so many have to break an expression in each way, at each token and in each record.
const BROKEN_LEAST: u64 = 2;

/// Asks of a check's cases that they show every way as `broken::shown` tells it, and tells the rarest place of each.
pub fn hold_ways<C: Case>(
    check: &Check<C>,
    ways: impl Iterator<Item = Way>,
    shown: fn(&C, C::Answer) -> Option<String>,
) {
    let mut cases = BTreeMap::new();
    for shown in test_seeds(check.count).map(check.generate).filter_map(|case| shown(&case, case.model())) {
        *cases.entry(shown).or_insert(0) += 1;
    }
    println!("{cases:#?}");
    let hits =
        |feature: String| Hits { cases: cases.get(&feature).copied().unwrap_or(0), feature, least: BROKEN_LEAST };
    let rarest = ways.map(|way| way.shown().map(hits).min_by_key(|hits| hits.cases).expect("a place"));
    hold_hits(check, rarest.map(|hits| Hits { feature: format!("reply 7, the rarest: {}", hits.feature), ..hits }));
}

/// How many cases show a feature, and how many of 100,000 have to.
pub struct Hits {
    pub feature: String,
    pub cases: u64,
    pub least: u64,
}

/// Tells the hits, also where a test's output is not shown, and asks for enough of each.
pub fn hold_hits(check: &dyn AnyCheck, hits: impl IntoIterator<Item = Hits>) {
    let count = case_count(check.count());
    let mut too_few = Vec::new();
    for Hits { feature, cases, least } in hits {
        let least = count * least / 100_000;
        let line = format!("hit {}: {feature}: {cases} of {count} cases, {least} are due", check.name());
        writeln!(io::stdout(), "{line}").expect("standard output can be written");
        if cases < least {
            too_few.push(line);
        }
    }
    assert!(too_few.is_empty(), "too few cases:\n{}", too_few.join("\n"));
}

/// The seeds of a test that generates so many cases.
pub fn test_seeds(count: u64) -> impl Iterator<Item = u64> {
    seeds(first_seed().unwrap_or(1), case_count(count))
}

pub fn first_seed() -> Option<u64> {
    number("SEED")
}

pub fn case_count(default: u64) -> u64 {
    number("CASES").unwrap_or(default)
}

fn number(variable: &str) -> Option<u64> {
    let text = env::var(variable).ok().filter(|text| !text.is_empty())?;
    Some(text.parse().unwrap_or_else(|_| panic!("{variable} is not a number: {text}")))
}
