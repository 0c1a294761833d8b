//! How much stack a call takes: the stack below is painted, the call runs over it, and what was painted over is looked for.

use std::hint::black_box;
use std::ptr::{read_volatile, write_volatile};

/// The paint. A call that leaves this very byte at its deepest place measures a byte less.
const PAINT: u8 = 0xA5;

/// So much is painted; no call measured here comes near it.
const PAINTED: usize = 1 << 20;

/// Room that the painting and looking functions themselves may use next to their caller's frame.
const OWN: usize = 512;

/// The bytes of stack that the call takes, to a few hundred: what is nearest to the caller's frame is not told apart from
/// it. Runs on a thread of its own, whose stack is large enough for the paint.
pub fn taken(call: impl FnOnce() + Send) -> usize {
    std::thread::scope(|scope| {
        let thread = std::thread::Builder::new().stack_size(4 * PAINTED);
        thread.spawn_scoped(scope, || measured(call)).expect("a thread").join().expect("the call returns")
    })
}

#[inline(never)]
fn measured(call: impl FnOnce()) -> usize {
    let top = 0u8;
    let top = black_box(&top) as *const u8 as usize;
    painted(top);
    call();
    deepest(top)
}

#[inline(never)]
fn painted(top: usize) {
    for at in top - PAINTED..top - OWN {
        // SAFETY: the stack grows downwards and this thread's reaches beyond `PAINTED`; nothing below `top - OWN` is in use,
        // since this function calls nothing and its frame is smaller than that.
        unsafe { write_volatile(at as *mut u8, PAINT) };
    }
}

#[inline(never)]
fn deepest(top: usize) -> usize {
    for at in top - PAINTED..top - OWN {
        // SAFETY: as for painting; every byte was written there.
        if unsafe { read_volatile(at as *const u8) } != PAINT {
            return top - at;
        }
    }
    OWN
}
