//! Stands in for the Rust's hints to the compiler: they change no answer.

#[cold]
pub const fn cold() {}

#[inline(always)]
pub const fn likely(condition: bool) -> bool {
    if !condition {
        cold();
    }
    condition
}

#[inline(always)]
pub const fn unlikely(condition: bool) -> bool {
    if condition {
        cold();
    }
    condition
}
