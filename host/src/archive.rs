//! The calls of libkadvitul.a, as include/kadvitul.h declares them, behind safe functions; and the same calls as
//! something that tests are given, so that a test of the tests can give them another.

use crate::model::{JudgeAnswer, RunAnswer, ScriptAnswer, SliceAnswer, TraceAnswer};
use crate::program::{self, Printed};
use crate::written::{whole, whole_within, SCRIPT_ROOM};

/// Calls that are given a file, perhaps a bound, and last a valuation or a buffer to write into.
macro_rules! calls {
    ($(
        $last:ident: $slice:ty, $pointer:ty, $as_pointer:ident {
            $($name:ident($file:ident $(, $bound:ident)?) -> $number:ty, calls $symbol:ident;)*
        }
    )*) => {
        extern "C" {
            $($(fn $symbol(
                $file: *const u8,
                file_len: usize,
                $($bound: u64,)?
                $last: $pointer,
                last_len: usize,
            ) -> $number;)*)*
        }

        $($(pub fn $name($file: &[u8], $($bound: u64,)? $last: $slice) -> $number {
            // SAFETY: both slices are lent for the call alone, which writes to none but a buffer lent for change.
            unsafe {
                $symbol(
                    $file.as_ptr(),
                    $file.len(),
                    $($bound,)?
                    $last.$as_pointer(),
                    $last.len(),
                )
            }
        })*)*

        /// What is tested: every call of the archive, and the slice printer, unless one of them is written anew.
        pub trait Calls {
            $($(fn $name(&self, $file: &[u8], $($bound: u64,)? $last: $slice) -> $number {
                $name($file, $($bound,)? $last)
            })*)*

            fn print(&self, input: &[u8]) -> Printed {
                program::print_slice(input)
            }
        }
    };
}

calls! {
    valuation: &[u8], *const u8, as_ptr {
        run_reply(table, bound) -> u32, calls kadvitul_run_reply;
        run_offset(table, bound) -> u32, calls kadvitul_run_offset;
        run_verdict(table, bound) -> u32, calls kadvitul_run_verdict;
        run_place(table, bound) -> u32, calls kadvitul_run_place;
        run_back_jumps(table, bound) -> u32, calls kadvitul_run_back_jumps;
        judge_reply(trace) -> u32, calls kadvitul_judge_reply;
        judge_offset(trace) -> u32, calls kadvitul_judge_offset;
        judge_verdict(trace) -> u32, calls kadvitul_judge_verdict;
        judge_place(trace) -> u32, calls kadvitul_judge_place;
    }
    out: &mut [u8], *mut u8, as_mut_ptr {
        trace_reply(table, bound) -> u32, calls kadvitul_trace_reply;
        trace_offset(table, bound) -> u32, calls kadvitul_trace_offset;
        trace_length(table, bound) -> u32, calls kadvitul_trace_length;
        slice_reply(trace) -> u32, calls kadvitul_slice_reply;
        slice_offset(trace) -> u32, calls kadvitul_slice_offset;
        slice_length(trace) -> u32, calls kadvitul_slice_length;
        slice_inputs(trace) -> u32, calls kadvitul_slice_inputs;
        slice_mask(trace) -> u64, calls kadvitul_slice_mask;
        script_reply(trace) -> u32, calls kadvitul_script_reply;
        script_offset(trace) -> u32, calls kadvitul_script_offset;
        script_length(trace) -> u32, calls kadvitul_script_length;
    }
}

extern "C" {
    fn kadvitul_version() -> u32;
}

/// 10,000 times the first number, 100 times the second, and the third.
pub fn version() -> u32 {
    // SAFETY: it is given nothing and touches nothing.
    unsafe { kadvitul_version() }
}

/// The calls as they are.
pub const ARCHIVE: &dyn Calls = &Archive;

struct Archive;

impl Calls for Archive {}

impl dyn Calls + '_ {
    pub fn run(&self, table: &[u8], bound: u64, valuation: &[u8]) -> RunAnswer {
        RunAnswer {
            reply: self.run_reply(table, bound, valuation),
            offset: self.run_offset(table, bound, valuation),
            verdict: self.run_verdict(table, bound, valuation),
            place: self.run_place(table, bound, valuation),
            back_jumps: self.run_back_jumps(table, bound, valuation),
        }
    }

    pub fn judge(&self, trace: &[u8], valuation: &[u8]) -> JudgeAnswer {
        JudgeAnswer {
            reply: self.judge_reply(trace, valuation),
            offset: self.judge_offset(trace, valuation),
            verdict: self.judge_verdict(trace, valuation),
            place: self.judge_place(trace, valuation),
        }
    }

    /// Each call has a buffer of its own.
    pub fn trace(&self, table: &[u8], bound: u64, [a, b, c]: &mut [Vec<u8>; 3]) -> TraceAnswer {
        TraceAnswer {
            reply: self.trace_reply(table, bound, a),
            offset: self.trace_offset(table, bound, b),
            length: self.trace_length(table, bound, c),
        }
    }

    /// Each call has a buffer of its own.
    pub fn slice(&self, trace: &[u8], [a, b, c, d, e]: &mut [Vec<u8>; 5]) -> SliceAnswer {
        SliceAnswer {
            reply: self.slice_reply(trace, a),
            offset: self.slice_offset(trace, b),
            length: self.slice_length(trace, c),
            inputs: self.slice_inputs(trace, d),
            mask: self.slice_mask(trace, e),
        }
    }

    /// Each call has a buffer of its own.
    pub fn script(&self, trace: &[u8], [a, b, c]: &mut [Vec<u8>; 3]) -> ScriptAnswer {
        ScriptAnswer {
            reply: self.script_reply(trace, a),
            offset: self.script_offset(trace, b),
            length: self.script_length(trace, c),
        }
    }

    /// Empty where there is none.
    pub fn whole_trace(&self, table: &[u8], bound: u64) -> Vec<u8> {
        whole(|out| self.trace_length(table, bound, out))
    }

    /// Empty where there is none.
    pub fn whole_slice(&self, trace: &[u8]) -> Vec<u8> {
        whole(|out| self.slice_length(trace, out))
    }

    /// Empty where there is none.
    pub fn whole_script(&self, trace: &[u8]) -> Vec<u8> {
        whole_within(SCRIPT_ROOM, |out| self.script_length(trace, out))
    }

    pub fn mask(&self, trace: &[u8]) -> u64 {
        self.slice_mask(trace, &mut vec![0; trace.len()])
    }
}
