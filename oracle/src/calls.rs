//! The proved functions on numbers, and the machine's root behind the same kind of call.
use std::arch::asm;

unsafe extern "C" {
    pub safe fn pz_sqrt(x: f64) -> f64;
    pub safe fn pz_ceil(x: f64) -> f64;
    pub safe fn pz_abs(x: f64) -> f64;
    pub safe fn pz_max(a: f64, b: f64) -> f64;
    pub safe fn pz_clamp(x: f64, least: f64, most: f64) -> f64;
}

/// The machine's root: one instruction and the return.
#[inline(never)]
pub extern "C" fn machine_sqrt(x: f64) -> f64 {
    x.sqrt()
}

/// Its argument, for what a call alone takes. The compiler does not see that it does nothing, so it keeps the call.
#[inline(never)]
pub extern "C" fn same(x: f64) -> f64 {
    black_box_register(x)
}

/// Its argument, in a register that the compiler takes as changed.
#[inline(always)]
pub fn black_box_register(x: f64) -> f64 {
    let mut r = x;
    // SAFETY: it does nothing
    unsafe { asm!("/* {0} */", inout(xmm_reg) r, options(pure, nomem, nostack)) };
    r
}
