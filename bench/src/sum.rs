//! The sum of a plan's bytes alone, by each side. The library has no such call;
//! the crate `timed_sums` lends the benchmark the proved one, and the one that
//! stood there before it, two bytes a round.

use second::record;

use crate::fast;

/// Who forms the sum.
pub type Side = fn(&[u8]) -> u16;

/// What `libtimed_sums.a` has.
mod c {
    extern "C" {
        pub fn timed_sum_by_eight(plan: *const u8, plan_len: usize) -> u64;
        pub fn timed_sum_by_two(plan: *const u8, plan_len: usize) -> u64;
    }
}

/// As the proved calls form it, eight bytes a round.
#[allow(unsafe_code)]
pub fn proved(bytes: &[u8]) -> u16 {
    // SAFETY: as many bytes are lent as are said, to be read.
    unsafe { c::timed_sum_by_eight(bytes.as_ptr(), bytes.len()) as u16 }
}

/// As they formed it before, two bytes a round.
#[allow(unsafe_code)]
pub fn before(bytes: &[u8]) -> u16 {
    // SAFETY: as many bytes are lent as are said, to be read.
    unsafe { c::timed_sum_by_two(bytes.as_ptr(), bytes.len()) as u16 }
}

/// By the second program.
pub fn second(bytes: &[u8]) -> u16 {
    record::sum(bytes)
}

/// By the fast program, of an even number of bytes.
pub fn fast(bytes: &[u8]) -> u16 {
    fast::ledger::sum(bytes)
}
