//! Seeded faults: each liar gives what the archive gives but for one call, and a check of the suite has to notice it. The
//! liars stand in this file alone, where no other test can meet them.

use std::io::{self, Write};
use std::process::Command;
use std::str;

use host::archive::{Calls, ARCHIVE};
use host::broken::shown;
use host::check::{first_failing, seeds, AnyCheck};
use host::checks;
use host::parts::{as_old_trace, without_self_jumps, Parts};
use host::program::Printed;
use host::solving::with_zero_remainders;
use host::verdict::{CUT, ENDED, STOPPED, UNSAFE};

const ASSUME: u8 = 2;
const ASSERT: u8 = 3;
const BOUND: u8 = 4;
/// Buffers as long as this are lent to few calls.
const LONG: usize = 60_000;

/// Fails where the check passes the liar on all cases of its test.
fn is_noticed_by(check: &dyn AnyCheck, fault: &str, liar: &dyn Calls) -> u64 {
    let mut cases = 0;
    let failing = first_failing(check, seeds(1, check.count()), liar, |_| cases += 1);
    let seed = failing.unwrap_or_else(|| panic!("{} does not notice {fault} in {cases} cases", check.name()));
    let line = format!("hit faults: {} notices {fault} in case {cases}, seed {seed}", check.name());
    writeln!(io::stdout(), "{line}").expect("standard output can be written");
    seed
}

#[test]
fn a_place_cut_to_16_bits_is_noticed() {
    struct Liar;
    impl Calls for Liar {
        fn run_place(&self, table: &[u8], bound: u64, valuation: &[u8]) -> u32 {
            ARCHIVE.run_place(table, bound, valuation) & 0xFFFF
        }
    }
    is_noticed_by(&checks::RUN, "a place cut to 16 bits", &Liar);
}

#[test]
fn a_place_without_the_exits_is_noticed() {
    struct Liar;
    impl Calls for Liar {
        fn run_place(&self, table: &[u8], bound: u64, valuation: &[u8]) -> u32 {
            let place = ARCHIVE.run_place(table, bound, valuation);
            place.saturating_sub(ARCHIVE.run_back_jumps(table, bound, valuation))
        }
    }
    is_noticed_by(&checks::RUN, "places r×n+i", &Liar);
    is_noticed_by(&checks::DEMAND_3, "places r×n+i", &Liar);
}

#[test]
fn a_place_that_depends_on_the_bound_is_noticed() {
    struct Liar;
    impl Calls for Liar {
        fn run_place(&self, table: &[u8], bound: u64, valuation: &[u8]) -> u32 {
            match ARCHIVE.run_place(table, bound, valuation) {
                place @ 1.. if bound > 200 => place + 1,
                place => place,
            }
        }

        fn judge_place(&self, trace: &[u8], valuation: &[u8]) -> u32 {
            match ARCHIVE.judge_place(trace, valuation) {
                place @ 1.. if count(trace) > 1_000 => place + 1,
                place => place,
            }
        }
    }
    is_noticed_by(&checks::RAISED_RUNS, "places that depend on the bound", &Liar);
    is_noticed_by(&checks::RAISED_TRACES, "places that depend on the bound", &Liar);
}

#[test]
fn a_count_of_255_back_jumps_off_by_one_is_noticed() {
    struct Liar;
    impl Calls for Liar {
        fn run_back_jumps(&self, table: &[u8], bound: u64, valuation: &[u8]) -> u32 {
            ARCHIVE.run_back_jumps(table, bound, valuation).min(254)
        }
    }
    is_noticed_by(&checks::RUN, "254 back jumps for 255", &Liar);
}

#[test]
fn a_last_back_jump_of_255_that_is_not_taken_is_noticed() {
    struct Liar;
    impl Calls for Liar {
        fn run_verdict(&self, table: &[u8], bound: u64, valuation: &[u8]) -> u32 {
            let bound = if bound == 255 { 254 } else { bound };
            ARCHIVE.run_verdict(table, bound, valuation)
        }
    }
    is_noticed_by(&checks::RUN, "the bound 254 for 255", &Liar);
}

#[test]
fn a_bound_that_is_counted_as_used_up_in_every_loop_is_noticed() {
    struct Liar;
    impl Calls for Liar {
        fn run_back_jumps(&self, table: &[u8], bound: u64, valuation: &[u8]) -> u32 {
            match ARCHIVE.run_back_jumps(table, bound, valuation) {
                101.. if ARCHIVE.run_verdict(table, bound, valuation) == ENDED => bound as u32,
                taken => taken,
            }
        }
    }
    is_noticed_by(&checks::RUN, "no back jump to spare after 100", &Liar);
}

#[test]
fn an_assert_that_is_passed_over_from_instruction_1000_on_is_noticed() {
    struct Liar;
    impl Calls for Liar {
        fn run_verdict(&self, table: &[u8], bound: u64, valuation: &[u8]) -> u32 {
            let verdict = ARCHIVE.run_verdict(table, bound, valuation);
            if verdict == UNSAFE && ARCHIVE.run_place(table, bound, valuation) % (count(table) + 1) >= 1_000 {
                return ENDED;
            }
            verdict
        }
    }
    is_noticed_by(&checks::RUN, "no Assert from instruction 1,000 on", &Liar);
}

#[test]
fn a_jump_to_itself_that_goes_on_is_noticed() {
    struct Liar;
    impl Calls for Liar {
        fn run_verdict(&self, table: &[u8], bound: u64, valuation: &[u8]) -> u32 {
            ARCHIVE.run_verdict(&without_self_jumps(table), bound, valuation)
        }
    }
    is_noticed_by(&checks::RUN, "jumps to themselves that go on", &Liar);
    is_noticed_by(&checks::DEMAND_3, "jumps to themselves that go on", &Liar);
}

#[test]
fn input_63_taken_for_0_is_noticed() {
    struct Liar;
    impl Calls for Liar {
        fn run_verdict(&self, table: &[u8], bound: u64, valuation: &[u8]) -> u32 {
            let mut valuation = valuation.to_vec();
            valuation.iter_mut().skip(4 * 63).for_each(|byte| *byte = 0);
            ARCHIVE.run_verdict(table, bound, &valuation)
        }
    }
    is_noticed_by(&checks::RUN, "input 63 taken for 0", &Liar);
}

#[test]
fn a_valuation_refused_before_a_bound_above_255_is_noticed() {
    struct Liar;
    impl Calls for Liar {
        fn run_reply(&self, table: &[u8], bound: u64, valuation: &[u8]) -> u32 {
            match ARCHIVE.run_reply(table, bound, valuation) {
                8 => ARCHIVE.run_reply(table, 0, valuation).max(8),
                reply => reply,
            }
        }
    }
    is_noticed_by(&checks::RUN, "reply 11 given for 8", &Liar);
}

#[test]
fn an_expression_refused_for_an_assigned_symbol_is_noticed() {
    struct Liar;
    impl Calls for Liar {
        fn judge_reply(&self, trace: &[u8], valuation: &[u8]) -> u32 {
            match ARCHIVE.judge_reply(trace, valuation) {
                6 => 7,
                reply => reply,
            }
        }
    }
    is_noticed_by(&checks::JUDGE, "reply 7 given for 6", &Liar);
}

/// Gives another offset for refusal 7, from the file and the right one.
struct PointsElsewhere(fn(&[u8], u32) -> u32);

impl PointsElsewhere {
    fn offset(&self, file: &[u8], reply: u32, offset: u32) -> u32 {
        if reply == 7 {
            return (self.0)(file, offset);
        }
        offset
    }
}

impl Calls for PointsElsewhere {
    fn run_offset(&self, table: &[u8], bound: u64, valuation: &[u8]) -> u32 {
        let reply = ARCHIVE.run_reply(table, bound, valuation);
        self.offset(table, reply, ARCHIVE.run_offset(table, bound, valuation))
    }

    fn judge_offset(&self, trace: &[u8], valuation: &[u8]) -> u32 {
        self.offset(trace, ARCHIVE.judge_reply(trace, valuation), ARCHIVE.judge_offset(trace, valuation))
    }

    fn trace_offset(&self, table: &[u8], bound: u64, out: &mut [u8]) -> u32 {
        self.offset(table, ARCHIVE.trace_reply(table, bound, &mut []), ARCHIVE.trace_offset(table, bound, out))
    }

    fn slice_offset(&self, trace: &[u8], out: &mut [u8]) -> u32 {
        self.offset(trace, ARCHIVE.slice_reply(trace, &mut []), ARCHIVE.slice_offset(trace, out))
    }

    fn script_offset(&self, trace: &[u8], out: &mut [u8]) -> u32 {
        self.offset(trace, ARCHIVE.script_reply(trace, &mut []), ARCHIVE.script_offset(trace, out))
    }

    fn print(&self, input: &[u8]) -> Printed {
        let printed = ARCHIVE.print(input);
        let text = String::from_utf8_lossy(&printed.text);
        match text.strip_prefix("refused 7 at ").map(|offset| offset.trim_end().parse()) {
            Some(Ok(offset)) => Printed::just(format!("refused 7 at {}\n", (self.0)(&input[1..], offset))),
            _ => printed,
        }
    }
}

fn is_noticed_by_every_reader(fault: &str, offset: fn(&[u8], u32) -> u32) {
    let liar = PointsElsewhere(offset);
    let checks: [&dyn AnyCheck; 6] =
        [&checks::RUN, &checks::JUDGE, &checks::TRACE, &checks::SLICE, &checks::SCRIPT, &checks::PRINT];
    for check in checks {
        is_noticed_by(check, fault, &liar);
    }
}

#[test]
fn a_records_first_byte_given_for_its_broken_token_is_noticed() {
    is_noticed_by_every_reader("7 at the record's first byte", |file, offset| record(file, offset).0);
}

#[test]
fn an_expressions_end_given_for_its_broken_token_is_noticed() {
    is_noticed_by_every_reader("7 at the record's end", |file, offset| record(file, offset).1);
}

#[test]
fn a_token_without_all_its_bytes_refused_at_the_records_end_is_noticed() {
    is_noticed_by_every_reader("missing bytes at the record's end", |file, offset| {
        let is_cut = shown(file, offset).contains("without all its bytes");
        if is_cut {
            record(file, offset).1
        } else {
            offset
        }
    });
}

#[test]
fn words_left_refused_at_the_last_token_is_noticed() {
    is_noticed_by_every_reader("words left at the last byte", |file, offset| {
        let is_at_end = shown(file, offset).contains("words left");
        offset - u32::from(is_at_end)
    });
}

/// The first byte and the end of the record whose expression is refused at an offset.
fn record(file: &[u8], offset: u32) -> (u32, u32) {
    let parts = Parts::of(file).expect("a header");
    let (number, start) = parts.record_at(offset as usize - 1);
    (start as u32, (start + 2 + parts.records[number].len()) as u32)
}

#[test]
fn a_judged_place_65535_off_by_one_is_noticed() {
    struct Liar;
    impl Calls for Liar {
        fn judge_place(&self, trace: &[u8], valuation: &[u8]) -> u32 {
            ARCHIVE.judge_place(trace, valuation).min(65_534)
        }
    }
    is_noticed_by(&checks::JUDGE, "place 65534 for 65535", &Liar);
}

#[test]
fn a_late_byte_of_a_trace_is_noticed() {
    struct Liar;
    impl Calls for Liar {
        fn trace_length(&self, table: &[u8], bound: u64, out: &mut [u8]) -> u32 {
            let length = ARCHIVE.trace_length(table, bound, out);
            if length as usize > LONG {
                out[length as usize - 1] ^= 1;
            }
            length
        }
    }
    is_noticed_by(&checks::TRACE, "a long trace's last byte changed", &Liar);
}

#[test]
fn a_byte_behind_a_trace_is_noticed_and_reported_by_its_call_its_offset_and_both_values() {
    struct Liar;
    impl Calls for Liar {
        fn trace_offset(&self, table: &[u8], bound: u64, out: &mut [u8]) -> u32 {
            let offset = ARCHIVE.trace_offset(table, bound, out);
            if out.len() > LONG {
                out[LONG] ^= 1;
            }
            offset
        }
    }
    let seed = is_noticed_by(&checks::TRACE, "a byte of a buffer changed", &Liar);
    let report = checks::TRACE.report(seed, &Liar);
    let line = report.lines().nth(2).expect("a report's third line");
    assert!(line.starts_with("kadvitul_trace_offset, its buffer: byte 60000 is 0x"), "{line}");
    assert_eq!(line.matches("0x").count(), 2, "{line}");
}

#[test]
fn a_refusal_that_writes_a_byte_is_noticed() {
    struct Liar;
    impl Calls for Liar {
        fn trace_reply(&self, table: &[u8], bound: u64, out: &mut [u8]) -> u32 {
            let reply = ARCHIVE.trace_reply(table, bound, out);
            if reply == 9 && !out.is_empty() {
                out[0] = 130;
            }
            reply
        }
    }
    is_noticed_by(&checks::TRACE, "a byte written where reply 9 is given", &Liar);
}

#[test]
fn a_mask_with_bit_63_flipped_is_noticed() {
    struct Liar;
    impl Calls for Liar {
        fn slice_mask(&self, trace: &[u8], out: &mut [u8]) -> u64 {
            let mask = ARCHIVE.slice_mask(trace, out);
            if mask >> 62 == 0 {
                mask
            } else {
                mask ^ 1 << 63
            }
        }
    }
    is_noticed_by(&checks::SLICE, "bit 63 flipped where bit 62 or 63 is set", &Liar);
}

#[test]
fn a_mask_without_an_input_that_decides_is_noticed() {
    struct Liar;
    impl Calls for Liar {
        fn slice_mask(&self, trace: &[u8], out: &mut [u8]) -> u64 {
            let mask = ARCHIVE.slice_mask(trace, out);
            mask & !(1 << 63 >> mask.leading_zeros().min(63))
        }
    }
    is_noticed_by(&checks::SLICE, "the mask's highest bit cleared", &Liar);
    is_noticed_by(&checks::SLICE_UNREAD, "the mask's highest bit cleared", &Liar);
    is_noticed_by(&checks::DEMAND_3, "the mask's highest bit cleared", &Liar);
}

#[test]
fn a_count_of_read_inputs_off_by_one_is_noticed() {
    struct Liar;
    impl Calls for Liar {
        fn slice_inputs(&self, trace: &[u8], out: &mut [u8]) -> u32 {
            let mask = ARCHIVE.mask(trace);
            ARCHIVE.slice_inputs(trace, out) - (mask >> 63) as u32
        }
    }
    is_noticed_by(&checks::SLICE, "input 63 not counted", &Liar);
}

#[test]
fn a_late_byte_of_a_slice_is_noticed() {
    struct Liar;
    impl Calls for Liar {
        fn slice_mask(&self, trace: &[u8], out: &mut [u8]) -> u64 {
            let mask = ARCHIVE.slice_mask(trace, out);
            if out.len() > LONG {
                *out.last_mut().expect("a long buffer") ^= 1;
            }
            mask
        }
    }
    is_noticed_by(&checks::SLICE, "the last byte of a long buffer changed", &Liar);
}

/// Leaves the statements of a kind out of every slice.
struct SlicesWithout(u8);

impl Calls for SlicesWithout {
    fn slice_length(&self, trace: &[u8], out: &mut [u8]) -> u32 {
        let length = ARCHIVE.slice_length(trace, out) as usize;
        let slice = without(&out[..length], self.0);
        out[..slice.len()].copy_from_slice(&slice);
        slice.len() as u32
    }
}

#[test]
fn a_slice_without_its_assumes_is_noticed() {
    let liar = SlicesWithout(ASSUME);
    is_noticed_by(&checks::SLICE, "a slice without its Assumes", &liar);
    is_noticed_by(&checks::SLICE_JUDGED, "a slice without its Assumes", &liar);
    is_noticed_by(&checks::DEMAND_3, "a slice without its Assumes", &liar);
}

#[test]
fn a_slice_without_its_bounds_is_noticed() {
    let liar = SlicesWithout(BOUND);
    is_noticed_by(&checks::SLICE, "a slice without its bounds", &liar);
    is_noticed_by(&checks::SLICE_JUDGED, "a slice without its bounds", &liar);
    is_noticed_by(&checks::OLD_JUDGED, "a slice without its bounds", &liar);
    is_noticed_by(&checks::DEMAND_3, "a slice without its bounds", &liar);
}

#[test]
fn a_cut_run_called_ended_is_noticed() {
    struct Liar;
    impl Calls for Liar {
        fn run_verdict(&self, table: &[u8], bound: u64, valuation: &[u8]) -> u32 {
            match ARCHIVE.run_verdict(table, bound, valuation) {
                CUT => ENDED,
                verdict => verdict,
            }
        }
    }
    is_noticed_by(&checks::RUN, "a cut run called ended", &Liar);
    is_noticed_by(&checks::DEMAND_3, "a cut run called ended", &Liar);
    is_noticed_by(&checks::RAISED_RUNS, "a cut run called ended", &Liar);
}

#[test]
fn a_cut_trace_called_stopped_is_noticed() {
    struct Liar;
    impl Calls for Liar {
        fn judge_verdict(&self, trace: &[u8], valuation: &[u8]) -> u32 {
            match ARCHIVE.judge_verdict(trace, valuation) {
                CUT => STOPPED,
                verdict => verdict,
            }
        }
    }
    is_noticed_by(&checks::JUDGE, "a cut trace called stopped", &Liar);
    is_noticed_by(&checks::DEMAND_3, "a cut trace called stopped", &Liar);
    is_noticed_by(&checks::RAISED_TRACES, "a cut trace called stopped", &Liar);
}

#[test]
fn a_stopped_run_called_ended_is_noticed() {
    struct Liar;
    impl Calls for Liar {
        fn run_verdict(&self, table: &[u8], bound: u64, valuation: &[u8]) -> u32 {
            match ARCHIVE.run_verdict(table, bound, valuation) {
                STOPPED => ENDED,
                verdict => verdict,
            }
        }
    }
    is_noticed_by(&checks::RUN, "a stopped run called ended", &Liar);
    is_noticed_by(&checks::DEMAND_3, "a stopped run called ended", &Liar);
}

#[test]
fn the_bounds_test_written_as_an_assume_is_noticed() {
    struct Liar;
    impl Calls for Liar {
        fn trace_length(&self, table: &[u8], bound: u64, out: &mut [u8]) -> u32 {
            let length = ARCHIVE.trace_length(table, bound, out);
            let mut trace = as_old_trace(&out[..length as usize]);
            trace.iter_mut().take(1).for_each(|version| *version = 130);
            out[..trace.len()].copy_from_slice(&trace);
            length
        }
    }
    is_noticed_by(&checks::TRACE, "the bound's test as an Assume", &Liar);
    is_noticed_by(&checks::DEMAND_3, "the bound's test as an Assume", &Liar);
}

#[test]
fn a_bound_accepted_in_version_129_is_noticed() {
    struct Liar;
    impl Calls for Liar {
        fn judge_reply(&self, trace: &[u8], valuation: &[u8]) -> u32 {
            ARCHIVE.judge_reply(&as_130(trace), valuation)
        }
        fn slice_reply(&self, trace: &[u8], out: &mut [u8]) -> u32 {
            ARCHIVE.slice_reply(&as_130(trace), out)
        }
    }
    is_noticed_by(&checks::JUDGE, "kind 4 accepted in version 129", &Liar);
    is_noticed_by(&checks::SLICE, "kind 4 accepted in version 129", &Liar);
}

#[test]
fn a_trace_of_version_129_that_is_refused_is_noticed() {
    struct Liar;
    impl Calls for Liar {
        fn judge_reply(&self, trace: &[u8], valuation: &[u8]) -> u32 {
            match ARCHIVE.judge_reply(trace, valuation) {
                0 if trace[0] == 129 => 2,
                reply => reply,
            }
        }
    }
    is_noticed_by(&checks::JUDGE, "version 129 refused", &Liar);
    is_noticed_by(&checks::OLD_JUDGED, "version 129 refused", &Liar);
}

#[test]
fn a_slice_of_another_version_than_its_trace_is_noticed() {
    struct Liar;
    impl Calls for Liar {
        fn slice_length(&self, trace: &[u8], out: &mut [u8]) -> u32 {
            let length = ARCHIVE.slice_length(trace, out);
            out.iter_mut().take(length.min(1) as usize).for_each(|version| *version = 130);
            length
        }
    }
    is_noticed_by(&checks::SLICE, "every slice of version 130", &Liar);
    is_noticed_by(&checks::OLD_JUDGED, "every slice of version 130", &Liar);
}

#[test]
fn a_letter_of_a_long_script_is_noticed() {
    struct Liar;
    impl Calls for Liar {
        fn script_length(&self, trace: &[u8], out: &mut [u8]) -> u32 {
            let length = ARCHIVE.script_length(trace, out);
            if length as usize > LONG {
                out[length as usize / 2] ^= 1;
            }
            length
        }
    }
    is_noticed_by(&checks::SCRIPT, "a letter in the middle of a long script", &Liar);
}

#[test]
fn a_zero_behind_a_script_is_noticed() {
    struct Liar;
    impl Calls for Liar {
        fn script_length(&self, trace: &[u8], out: &mut [u8]) -> u32 {
            let length = ARCHIVE.script_length(trace, out);
            out.iter_mut().skip(length as usize).take(1).for_each(|byte| *byte = 0);
            length
        }
    }
    is_noticed_by(&checks::SCRIPT, "a zero behind the script", &Liar);
}

#[test]
fn a_script_that_is_refused_the_exact_room_is_noticed() {
    struct Liar;
    impl Calls for Liar {
        fn script_reply(&self, trace: &[u8], out: &mut [u8]) -> u32 {
            match ARCHIVE.script_reply(trace, out) {
                0 if ARCHIVE.whole_script(trace).len() == out.len() => 10,
                reply => reply,
            }
        }
    }
    is_noticed_by(&checks::SCRIPT, "reply 10 for the exact room", &Liar);
}

#[test]
fn room_that_is_enough_for_the_script_of_the_slice_alone_is_noticed() {
    struct Liar;
    impl Calls for Liar {
        fn script_reply(&self, trace: &[u8], out: &mut [u8]) -> u32 {
            match ARCHIVE.script_reply(trace, out) {
                10 => ARCHIVE.script_reply(&ARCHIVE.whole_slice(trace), out),
                reply => reply,
            }
        }
    }
    is_noticed_by(&checks::SCRIPT, "the room of the slice's script", &Liar);
}

#[test]
fn a_script_that_lacks_a_parenthesis_is_noticed() {
    struct Liar;
    impl Calls for Liar {
        fn script_length(&self, trace: &[u8], out: &mut [u8]) -> u32 {
            let length = ARCHIVE.script_length(trace, out);
            rewrite(out, length, |script| script.replacen("false)", "false", 1))
        }
    }
    is_noticed_by(&checks::SCRIPT, "a parenthesis less", &Liar);
    is_noticed_by(&checks::ACCEPTED, "a parenthesis less", &Liar);
}

#[test]
fn a_script_without_its_bounds_is_noticed() {
    struct Liar;
    impl Calls for Liar {
        fn script_length(&self, trace: &[u8], out: &mut [u8]) -> u32 {
            ARCHIVE.script_length(&without(trace, BOUND), out)
        }
    }
    is_noticed_by(&checks::SCRIPT, "a script without its bounds", &Liar);
    is_noticed_by(&checks::PINNED, "a script without its bounds", &Liar);
}

#[test]
fn a_script_in_which_a_remainder_by_zero_is_zero_is_noticed() {
    struct Liar;
    impl Calls for Liar {
        fn script_length(&self, trace: &[u8], out: &mut [u8]) -> u32 {
            let length = ARCHIVE.script_length(trace, out);
            rewrite(out, length, with_zero_remainders)
        }
    }
    is_noticed_by(&checks::SCRIPT, "a remainder by zero that is 0", &Liar);
    is_noticed_by(&checks::PINNED, "a remainder by zero that is 0", &Liar);
}

#[test]
fn a_script_that_asks_of_the_last_assert_alone_is_noticed() {
    struct Liar;
    impl Calls for Liar {
        fn script_length(&self, trace: &[u8], out: &mut [u8]) -> u32 {
            ARCHIVE.script_length(&with_last_assert_alone(trace), out)
        }
    }
    is_noticed_by(&checks::SCRIPT, "Asserts but the last as Assumes", &Liar);
    is_noticed_by(&checks::PINNED, "Asserts but the last as Assumes", &Liar);
    is_noticed_by(&checks::SOLVED, "Asserts but the last as Assumes", &Liar);
}

#[test]
fn a_back_jump_too_many_in_an_unsafe_run_is_noticed() {
    struct Liar;
    impl Calls for Liar {
        fn run_back_jumps(&self, table: &[u8], bound: u64, valuation: &[u8]) -> u32 {
            let is_unsafe = ARCHIVE.run_verdict(table, bound, valuation) == UNSAFE;
            ARCHIVE.run_back_jumps(table, bound, valuation) + u32::from(is_unsafe)
        }
    }
    is_noticed_by(&checks::WITHIN, "a back jump too many", &Liar);
}

#[test]
fn an_unsafe_place_that_is_its_copys_exit_is_noticed() {
    struct Liar;
    impl Calls for Liar {
        fn run_place(&self, table: &[u8], bound: u64, valuation: &[u8]) -> u32 {
            let place = ARCHIVE.run_place(table, bound, valuation);
            match ARCHIVE.run_verdict(table, bound, valuation) {
                UNSAFE => place - place % (count(table) + 1) + count(table),
                _ => place,
            }
        }
    }
    is_noticed_by(&checks::WITHIN, "the exit's place", &Liar);
}

#[test]
fn a_late_byte_of_a_text_is_noticed() {
    struct Liar;
    impl Calls for Liar {
        fn print(&self, input: &[u8]) -> Printed {
            let mut printed = ARCHIVE.print(input);
            if printed.text.len() > 10_000 {
                *printed.text.last_mut().expect("a long text") ^= 1;
            }
            printed
        }
    }
    is_noticed_by(&checks::PRINT, "a long text's last byte changed", &Liar);
    is_noticed_by(&checks::PRINT_READ, "a long text's last byte changed", &Liar);
}

#[test]
fn a_failing_case_is_reported_with_the_command_that_repeats_it() {
    struct Liar;
    impl Calls for Liar {
        fn run_back_jumps(&self, table: &[u8], bound: u64, valuation: &[u8]) -> u32 {
            ARCHIVE.run_back_jumps(table, bound, valuation).min(1)
        }
    }
    let seed = is_noticed_by(&checks::RUN, "one back jump for more", &Liar);
    let report = checks::RUN.report(seed, &Liar);
    assert!(report.contains(&format!("CASE=run SEED={seed} cargo run --offline --release")), "{report}");
    assert!(report.contains("\nkadvitul_run_back_jumps: 1, not 2\n"), "{report}");
    let mut soak = Command::new(env!("CARGO_BIN_EXE_soak"));
    let output = soak.env("CASE", "run").env("SEED", seed.to_string()).output().expect("the soak starts");
    assert_eq!(String::from_utf8_lossy(&output.stdout), format!("run: the case of seed {seed} holds\n"));
}

/// A trace without its statements of a kind; empty where there is no header.
fn without(trace: &[u8], kind: u8) -> Vec<u8> {
    let Some(mut parts) = Parts::of(trace) else {
        return vec![];
    };
    parts.records.retain(|record| record.first() != Some(&kind));
    parts.join()
}

/// A trace in which all Asserts but the last are Assumes; empty where there is no header.
fn with_last_assert_alone(trace: &[u8]) -> Vec<u8> {
    let Some(mut parts) = Parts::of(trace) else {
        return vec![];
    };
    let asserts = parts.records.iter_mut().filter_map(|record| record.first_mut()).filter(|kind| **kind == ASSERT);
    asserts.rev().skip(1).for_each(|kind| *kind = ASSUME);
    parts.join()
}

/// A trace of version 129 called one of version 130.
fn as_130(trace: &[u8]) -> Vec<u8> {
    let mut trace = trace.to_vec();
    trace.iter_mut().take(1).filter(|version| **version == 129).for_each(|version| *version = 130);
    trace
}

/// Puts another script into the place of one of so many letters, where there is room for it, and gives its length.
fn rewrite(out: &mut [u8], length: u32, edit: impl Fn(&str) -> String) -> u32 {
    let script = str::from_utf8(&out[..length as usize]).expect("a text");
    let edited = edit(script);
    let Some(room) = out.get_mut(..edited.len()) else {
        return length;
    };
    room.copy_from_slice(edited.as_bytes());
    edited.len() as u32
}

fn count(file: &[u8]) -> u32 {
    u16::from_be_bytes([file[4], file[5]]).into()
}
