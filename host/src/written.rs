//! Buffers lent to the calls that write, and what is left in them.

use std::array;

/// No trace has more bytes.
pub const LENGTH_LIMIT: usize = 65_535;
/// No script has more letters, as include/kadvitul.h says.
pub const SCRIPT_ROOM: usize = 4_000_000;

/// An answer, and what its calls left in the buffers lent to them.
pub struct Written<A> {
    pub answer: A,
    /// One for each call, in their order, or one that is expected of all.
    pub outs: Vec<Vec<u8>>,
}

impl<A> Written<A> {
    pub fn new<const N: usize>(answer: A, outs: [Vec<u8>; N]) -> Written<A> {
        Written { answer, outs: outs.into() }
    }

    /// What is written from the first byte of a buffer of so many bytes, which is left as it was behind that.
    pub fn known(answer: A, bytes: &[u8], room: usize) -> Written<A> {
        let mut outs: [Vec<u8>; 1] = lend(room);
        outs[0][..bytes.len()].copy_from_slice(bytes);
        Written::new(answer, outs)
    }
}

/// Buffers in which neighbours differ, so that a byte written or moved shows.
pub fn lend<const N: usize>(room: usize) -> [Vec<u8>; N] {
    array::from_fn(|_| (0..room).map(|i| (i * 89 + 0xA5) as u8).collect())
}

/// What a call that gives its length writes into room enough for every trace; nothing where it refuses.
pub fn whole(call: impl FnOnce(&mut [u8]) -> u32) -> Vec<u8> {
    whole_within(LENGTH_LIMIT, call)
}

/// As `whole`, into so much room.
pub fn whole_within(room: usize, call: impl FnOnce(&mut [u8]) -> u32) -> Vec<u8> {
    let mut out = vec![0; room];
    let length = call(&mut out);
    out.truncate(length as usize);
    out.shrink_to_fit();
    out
}

/// How the room lent to a call meets the length that it writes, in words.
pub fn fit(room: usize, length: usize) -> &'static str {
    match room {
        0 => "no room",
        _ if room == length => "the exact room",
        _ if room == length + 1 => "a byte more room",
        _ if room + 1 == length => "a byte too little room",
        _ if room > length => "much more room",
        _ => "too little room",
    }
}
