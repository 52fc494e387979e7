//! List and step by trailing zeros, written by hand, for the benchmark alone. They are called as the library is, not inlined;
//! the step also behind the library's own C interface, so that the same text shows what the interface costs.

use crate::plain::{done, fault, refused, Answer, Step, Walk};

/// The free bits of the lowest largest block of next..=last.
fn free(n: u32, next: u32, last: u32) -> u32 {
    next.trailing_zeros().min(31 - (last + 1 - next).leading_zeros()).min(n)
}

#[inline(never)]
pub fn list(n: u32, low: u32, high: u32, out: &mut [u16]) -> Answer {
    let no = fault(n, low, high);
    if no != 0 {
        return refused(no, 0, 0);
    }
    let mut held = [0; 60];
    let mut k = 0;
    let mut next = low;
    while next <= high {
        let free = free(n, next, high);
        held[2 * k] = next as u16;
        held[2 * k + 1] = ((1u32 << n) - (1 << free)) as u16;
        next += 1 << free;
        k += 1;
    }
    if out.len() < 2 * k {
        return refused(4, k as u32, 0);
    }
    out[..2 * k].copy_from_slice(&held[..2 * k]);
    done(k as u32, 0, 0, 0)
}

#[inline(always)]
fn step_by_hand(w: Walk) -> Step {
    let no = fault(w.width, w.next, w.last);
    if w.ended != 0 || no != 0 {
        return Step { no: if w.ended != 0 { 0 } else { no }, given: 0, value: 0, mask: 0, walk: w };
    }
    let size = 1 << free(w.width, w.next, w.last);
    let past = w.next + size;
    let walk = if past > w.last { Walk { ended: 1, ..w } } else { Walk { next: past, ended: 0, ..w } };
    Step { no: 0, given: 1, value: w.next, mask: (1 << w.width) - size, walk }
}

#[inline(never)]
pub fn step(w: Walk) -> Step {
    step_by_hand(w)
}

#[inline(never)]
pub extern "C" fn step_from_c(w: Walk) -> Step {
    step_by_hand(w)
}
