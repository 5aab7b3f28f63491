//! Stands for the library of the compiler where rustc asks for one: all but the quotient of 128 bits comes from gcc's. For bench/device.py.
#![feature(compiler_builtins)]
#![compiler_builtins]
#![no_std]
#![no_builtins]

/// The quotient, rounded toward zero: by long division, from the dividend's first bit on. The real library's is another.
#[no_mangle]
pub extern "C" fn __divti3(dividend: i128, divisor: i128) -> i128 {
    let (top, bottom) = (dividend.unsigned_abs(), divisor.unsigned_abs());
    let (mut rest, mut quotient) = (0u128, 0u128);
    let mut bit = 128 - top.leading_zeros();
    while bit > 0 {
        bit -= 1;
        rest = rest << 1 | top >> bit & 1;
        quotient <<= 1;
        if rest >= bottom {
            rest -= bottom;
            quotient |= 1;
        }
    }
    let signed = quotient as i128;
    if (dividend < 0) != (divisor < 0) { signed.wrapping_neg() } else { signed }
}
