//! Request 2026-01, "Safe says too little": how a run or a judging ends.

use crate::verdict;

pub enum End {
    /// Past the last instruction or statement.
    Ended,
    /// At the false Assert of this place.
    Unsafe(u32),
    /// At a false Assume.
    Stopped,
    /// At the bound.
    Cut,
}

impl End {
    pub fn verdict(&self) -> u32 {
        match self {
            End::Ended => verdict::ENDED,
            End::Unsafe(_) => verdict::UNSAFE,
            End::Stopped => verdict::STOPPED,
            End::Cut => verdict::CUT,
        }
    }

    /// All but unsafe have place 0.
    pub fn place(&self) -> u32 {
        match self {
            End::Unsafe(place) => *place,
            End::Ended | End::Stopped | End::Cut => 0,
        }
    }
}
