//! The filter gives what `fixd run average.bundle < rows.csv` printed, which is kept in `rows.out`.

use device::{word_of, Average, OutOfRange, INPUT_POINT, OUTPUT_POINT};

const ROWS: &str = include_str!("rows.csv");
const PRINTED: &str = include_str!("rows.out");

/// The exact decimal of `word / 2^point`, as `fixd run` prints it.
fn decimal(word: i64, point: u32) -> String {
    let sign = if word < 0 { "-" } else { "" };
    let whole = word.unsigned_abs() >> point;
    let rest = u128::from(word.unsigned_abs() & ((1 << point) - 1)) * 5u128.pow(point);
    let digits = format!("{rest:0width$}", width = point as usize);
    let digits = digits.trim_end_matches('0');
    let dot = if digits.is_empty() { "" } else { "." };
    format!("{sign}{whole}{dot}{digits}")
}

#[test]
fn each_answer_is_that_of_run() {
    let mut filter = Average::new();
    let mut printed = PRINTED.lines();
    assert_eq!(printed.next(), Some("out1"));
    for row in ROWS.lines().skip(1) {
        let reading = row.split(',').next().unwrap().parse().unwrap();
        let word = filter.step(reading).unwrap();
        assert_eq!(
            printed.next(),
            Some(&*decimal(word, OUTPUT_POINT)),
            "row {row}"
        );
    }
    assert_eq!(printed.next(), None);
}

#[test]
fn a_reading_out_of_range_makes_no_step() {
    let mut filter = Average::new();
    filter.step(4096).unwrap();
    let before = filter.clone();
    assert_eq!(filter.step(4097), Err(OutOfRange));
    assert_eq!(filter.step(u16::MAX), Err(OutOfRange));
    assert_eq!(filter, before);
}

#[test]
fn a_word_is_the_value_at_the_point() {
    let one = 1 << INPUT_POINT;
    assert_eq!(word_of(0), Ok(-one));
    assert_eq!(word_of(2048), Ok(0));
    assert_eq!(word_of(2049), Ok(one / 2048));
    assert_eq!(word_of(4096), Ok(one));
}
