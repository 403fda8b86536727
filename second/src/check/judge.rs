//! The number that a lent store's words alone decide: 0, 1, 2 or 3.

use super::layout::parts;
use super::reading::Reading;
use super::sound::{broken_rules, test_sound};
use std::num::ParseIntError;

/// Looks for the numbers in the order of the table; under 16 words the counts can't be read, which gives 2.
pub fn judge(words: &[u32]) -> u32 {
    if words.len() < 16 {
        return 2;
    }
    let in_range = (1..=192).contains(&words[5]) && (1..=1024).contains(&words[7]);
    if !in_range || words[9] > 32 {
        return 1;
    }
    if parts(words).is_err() {
        return 2;
    }
    let sound = Reading::of(words).and_then(|reading| test_sound(&reading));
    if sound.is_ok() {
        0
    } else {
        3
    }
}

/// What is wrong with a lent store: that its words have no meaning, or each rule that it breaks.
pub fn complaints(words: &[u32]) -> Vec<String> {
    match Reading::of(words) {
        Err(complaint) => vec![complaint],
        Ok(reading) => broken_rules(&reading),
    }
}

/// A line with the number of each store of a text, which has the words of one in a line.
pub fn judge_lines(stores: &str) -> Result<String, ParseIntError> {
    let mut numbers = String::new();
    for line in stores.lines() {
        let fields = line.split(' ').filter(|_| !line.is_empty());
        let words: Vec<u32> = fields.map(str::parse).collect::<Result<_, _>>()?;
        numbers.push_str(&format!("{}\n", judge(&words)));
    }
    Ok(numbers)
}
