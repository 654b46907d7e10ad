//! The sample rules of `rules/`, through the archive: what their stories say of them.

use host::archive::ARCHIVE;
use host::hex;
use host::parts::{as_old_trace, Parts};
use host::verdict::{CUT, ENDED, STOPPED, UNSAFE};

const SMALL: &str = include_str!("../../rules/small.hex");
const MARCH: &str = include_str!("../../rules/march.hex");
const NEWER: &str = include_str!("../../rules/newer.hex");
const STATIONS: &str = include_str!("../../rules/stations.hex");
const REFUSED: &str = include_str!("../../rules/refused.hex");

fn table(text: &str) -> Vec<u8> {
    hex::bytes(text).expect("a rule's bytes")
}

fn slice(text: &str, bound: u64) -> Vec<u8> {
    ARCHIVE.whole_slice(&ARCHIVE.whole_trace(&table(text), bound))
}

/// Verdict and place of running a rule, judging its trace and judging the slice.
fn verdicts(text: &str, bound: u64, words: &[u32]) -> [(u32, u32); 3] {
    let valuation: Vec<u8> = words.iter().flat_map(|word| word.to_be_bytes()).collect();
    let trace = ARCHIVE.whole_trace(&table(text), bound);
    let run = ARCHIVE.run(&table(text), bound, &valuation);
    let judged = ARCHIVE.judge(&trace, &valuation);
    let sliced = ARCHIVE.judge(&ARCHIVE.whole_slice(&trace), &valuation);
    assert_eq!([run.reply, judged.reply, sliced.reply], [0; 3]);
    [(run.verdict, run.place), (judged.verdict, judged.place), (sliced.verdict, sliced.place)]
}

/// Kind and place of each statement.
fn statements(trace: &[u8]) -> Vec<(u8, u16)> {
    let records = Parts::of(trace).expect("a whole header").records;
    records.iter().map(|record| (record[0], u16::from_be_bytes([record[1], record[2]]))).collect()
}

#[test]
fn every_rule_is_accepted_but_the_one_that_is_refused() {
    for text in [SMALL, MARCH, NEWER, STATIONS] {
        assert_eq!(ARCHIVE.trace_reply(&table(text), 3, &mut vec![0; 65_535]), 0);
    }
    assert_eq!(ARCHIVE.trace_reply(&table(REFUSED), 3, &mut []), 6);
    assert_eq!(ARCHIVE.trace_offset(&table(REFUSED), 3, &mut []), 6);
}

#[test]
fn the_rule_of_march_is_unsafe_in_run_trace_and_slice_where_its_counter_reaches_two() {
    assert_eq!(verdicts(MARCH, 2, &[2, 0]), [(UNSAFE, 2 * 8 + 6); 3]);
    assert_eq!(verdicts(MARCH, 5, &[5, 9]), [(UNSAFE, 5 * 8 + 6); 3]);
}

#[test]
fn the_rule_of_march_ends_in_run_trace_and_slice_where_its_counter_stays_below_two() {
    assert_eq!(verdicts(MARCH, 2, &[1, 0]), [(ENDED, 0); 3]);
    assert_eq!(verdicts(MARCH, 0, &[0, 9]), [(ENDED, 0); 3]);
}

#[test]
fn the_rule_of_march_is_cut_in_run_trace_and_slice_where_the_bound_is_too_small_to_tell() {
    assert_eq!(verdicts(MARCH, 1, &[2, 0]), [(CUT, 0); 3]);
    assert_eq!(verdicts(MARCH, 0, &[1, 0]), [(CUT, 0); 3]);
}

#[test]
fn the_small_rule_is_cut_and_an_old_trace_of_it_shows_that_as_stopped() {
    let old_trace = as_old_trace(&ARCHIVE.whole_trace(&table(SMALL), 1));
    let [judged, sliced] =
        [old_trace.clone(), ARCHIVE.whole_slice(&old_trace)].map(|t| ARCHIVE.judge(&t, &[0, 0, 0, 2]));
    assert_eq!(verdicts(SMALL, 1, &[2]), [(CUT, 0); 3]);
    assert_eq!([judged.verdict, sliced.verdict], [STOPPED; 2]);
    assert_eq!([judged.place, sliced.place], [0; 2]);
}

#[test]
fn the_slice_of_march_keeps_the_counters_assignments() {
    let kept = statements(&slice(MARCH, 2));
    for place in [0, 2, 10] {
        assert!(kept.contains(&(1, place)), "no assignment at place {place} in {kept:?}");
    }
}

#[test]
fn the_merged_copy_is_newer_thanks_to_an_assume_that_the_slice_keeps() {
    for versions in [[0, 0, 0], [65_535, 7, 9]] {
        assert_eq!(verdicts(NEWER, 0, &versions), [(ENDED, 0); 3]);
    }
    for versions in [[u32::MAX, 0, 0], [3, u32::MAX, 0]] {
        assert_eq!(verdicts(NEWER, 0, &versions), [(STOPPED, 0); 3]);
    }
    assert!(statements(&slice(NEWER, 0)).contains(&(2, 0)));
}

#[test]
fn the_merged_copy_is_not_newer_without_the_assume() {
    let [assume, nothing] = ["26 01 00 01 00 00 2B", "26 01 FF FF FF FF 2D"];
    assert!(NEWER.contains(assume), "s0 or s1 is below 65,536");
    let changed = NEWER.replace(assume, nothing);
    assert_eq!(verdicts(&changed, 0, &[u32::MAX, 0, 0]), [(UNSAFE, 3); 3]);
}

#[test]
fn one_fault_of_64_stations_is_found_and_every_input_is_read() {
    assert_eq!(ARCHIVE.mask(&ARCHIVE.whole_trace(&table(STATIONS), 0)), u64::MAX);
    assert_eq!(verdicts(STATIONS, 3, &[0; 64]), [(ENDED, 0); 3]);
    for station in 0..64 {
        let mut words = [0; 64];
        words[station] = 1 << (station % 32);
        assert_eq!(verdicts(STATIONS, 0, &words), [(UNSAFE, 0); 3]);
    }
}
