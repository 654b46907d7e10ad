//! Request 2026-01, "Safe says too little": the four verdicts by their numbers.

/// Past the last instruction or statement. A refusal says so too.
pub const ENDED: u32 = 0;
/// At a false Assert.
pub const UNSAFE: u32 = 1;
/// At a false Assume.
pub const STOPPED: u32 = 2;
/// At the bound.
pub const CUT: u32 = 3;

pub const ALL: [u32; 4] = [ENDED, UNSAFE, STOPPED, CUT];

pub fn name(verdict: u32) -> &'static str {
    match verdict {
        ENDED => "ended",
        UNSAFE => "unsafe",
        STOPPED => "stopped",
        CUT => "cut",
        _ => "no verdict",
    }
}
