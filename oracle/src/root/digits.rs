//! The root by its definition: the whole part of a whole number's root, a binary digit at a time, rounded to nearest.
//! It uses no floating-point operation, and shares nothing with the proved function.

/// The largest s with s * s <= n, for an n below 4^k: the root of n / 4, doubled, and one more where its square still fits.
fn whole_root(n: u128, k: u32) -> u128 {
    let mut s = 0u128;
    for place in (0..k).rev() {
        s *= 2;
        if (s + 1) * (s + 1) <= n >> (2 * place) {
            s += 1;
        }
    }
    s
}

/// The root of a finite x above zero.
fn positive_root(x: f64) -> f64 {
    let field = (x.to_bits() >> 52) as i64;
    let fraction = x.to_bits() & ((1 << 52) - 1);
    // x = digits * 2^exponent
    let (mut digits, mut exponent) = if field == 0 {
        (fraction, -1074)
    } else {
        (fraction | 1 << 52, field - 1075)
    };
    while digits < 1 << 52 || exponent % 2 != 0 {
        digits *= 2;
        exponent -= 1;
    }
    // x = n * 4^half, and n has 105 or 106 binary digits, so that its root has 53
    let n = (digits as u128) << 52;
    let half = (exponent - 52) / 2;
    let s = whole_root(n, 53);
    // the root of n is above s + 1/2 where n > s * s + s; it is never s + 1/2 itself
    let nearest = if n > s * s + s { s + 1 } else { s };
    // nearest * 2^half: the leading digit adds one to the exponent's field, and so does a carry to 2^53
    f64::from_bits(((half + 1074) as u64) * (1 << 52) + nearest as u64)
}

/// The root of any x, as IEEE 754 says.
#[inline(never)]
pub extern "C" fn digit_sqrt(x: f64) -> f64 {
    if x.is_nan() || x == 0.0 || x == f64::INFINITY {
        x
    } else if x < 0.0 {
        f64::NAN
    } else {
        positive_root(x)
    }
}
