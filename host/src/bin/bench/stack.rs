//! How deep a call reaches into the stack: the stack below its caller is painted, and the lowest byte that has lost its
//! paint is looked for afterwards. A few dozen bytes, those beside the paint in the painting function's frame, are missed.

use std::hint::black_box;

/// More than any call needs.
const AREA: usize = 1 << 17;
const PAINT: u8 = 0xA5;

#[inline(never)]
pub fn stack_bytes<T>(call: impl FnOnce() -> T) -> usize {
    let lowest = paint();
    black_box(call());
    AREA - painted(lowest)
}

/// The address of the lowest painted byte.
#[inline(never)]
fn paint() -> usize {
    let mut area = [PAINT; AREA];
    black_box(&mut area).as_ptr() as usize
}

/// How many bytes from the lowest on still have their paint.
#[inline(never)]
fn painted(lowest: usize) -> usize {
    // SAFETY: these bytes are the thread's own stack, mapped since `paint` wrote them, and are only looked at.
    let is_painted = |&i: &usize| unsafe { ((lowest + i) as *const u8).read_volatile() == PAINT };
    (0..AREA).take_while(is_painted).count()
}
