//! The filter of `examples/average` as a library for a microcontroller: to be copied.
//!
//! `filter.rs` is what `fixd rust average.bundle` prints, byte for byte. What the text doesn't say stands here: where the state starts, how a
//! reading becomes a word, and that it lies in the range that the source declares. These change with the bundle. `tests` has rows, and what
//! `fixd run` printed of them.
#![no_std]
#![forbid(unsafe_code)]

// one text a module, since each defines `step`
#[rustfmt::skip]
#[allow(unused_variables, clippy::all)]
mod filter;

/// The word of the state before the first step: the last number of the bundle's `st 0 12 0`.
const START: [i64; 1] = [0];

/// The binary point of the input: the last number of the bundle's `in 0 12`.
pub const INPUT_POINT: u32 = 12;

/// The binary point of the output, which `fixd show` prints with its copy: a word `w` stands for `w / 2^12`.
pub const OUTPUT_POINT: u32 = 12;

/// The reading of the converter that stands for 0; one step of it is 1/2048.
const MIDDLE: i64 = 2048;

/// What the source demands of the input: `-1 <= u && u <= 1`, in steps of the converter.
const RANGE: core::ops::RangeInclusive<i64> = -2048..=2048;

/// The reading stands for a value outside the range. Nothing is certified of such a value, so that no step is made of it.
#[derive(Debug, Clone, Copy, PartialEq, Eq)]
pub struct OutOfRange;

/// A filter and its state. A value of its own is needed for each signal.
#[derive(Debug, Clone, PartialEq, Eq)]
pub struct Average {
    state: [i64; 1],
}

impl Average {
    /// A filter before its first step.
    pub const fn new() -> Self {
        Self { state: START }
    }

    /// Makes a step with a reading of the converter, and gives the word of the output. Where the reading is out of range, the state stays.
    pub fn step(&mut self, reading: u16) -> Result<i64, OutOfRange> {
        let word = word_of(reading)?;
        let [output] = filter::step(&mut self.state, &[word]);
        Ok(output)
    }
}

impl Default for Average {
    fn default() -> Self {
        Self::new()
    }
}

/// The word of a reading: the floor of its value times 2^12. The value is (reading - 2048) / 2048.
pub fn word_of(reading: u16) -> Result<i64, OutOfRange> {
    let steps = i64::from(reading) - MIDDLE;
    if !RANGE.contains(&steps) {
        return Err(OutOfRange);
    }
    // a division that rounds down, for a scale that isn't a power of two as well
    Ok((steps << INPUT_POINT).div_euclid(MIDDLE))
}
