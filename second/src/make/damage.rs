//! Texts with a fault in their form, at their length or at their start.

use super::random::Random;
use super::script::Script;
use super::tiny::mixed_step;
use crate::text::MOST_BYTES;

/// What is done to a text that was in order.
#[derive(Clone, Copy)]
enum Damage {
    /// One line is changed by itself.
    Line(fn(&mut Random, &mut Vec<u8>)),
    /// The whole text is changed.
    Text(fn(&mut Random, &mut Vec<u8>)),
}

const DAMAGES: [Damage; 24] = [
    Damage::Line(|_, line| line.clear()),
    Damage::Line(|_, line| line.push(b' ')),
    Damage::Line(|_, line| line.insert(0, b' ')),
    Damage::Line(|_, line| line.push(b'\r')),
    Damage::Line(|random, line| put_at_gap(random, line, b" ")),
    Damage::Line(|random, line| put_at_gap(random, line, b"\t")),
    Damage::Line(|random, line| put_before_number(random, line, b"+")),
    Damage::Line(|random, line| put_before_number(random, line, b"-")),
    Damage::Line(|random, line| put_before_number(random, line, b"0x")),
    Damage::Line(|random, line| put_before_number(random, line, b"42949672960")),
    Damage::Line(|random, line| put_before_number(random, line, b"18446744073709551616")),
    Damage::Line(|random, line| put_before_number(random, line, b"0000000000000")),
    Damage::Line(|random, line| put_anywhere(random, line, b"\0")),
    Damage::Line(|random, line| put_anywhere(random, line, "٣".as_bytes())),
    Damage::Line(|random, line| put_anywhere(random, line, b"\xff")),
    Damage::Line(|random, line| put_anywhere(random, line, b"\n")),
    Damage::Line(|_, line| line.extend(b" 0")),
    Damage::Line(|_, line| drop_last_number(line)),
    Damage::Text(|_, text| text.clear()),
    Damage::Text(|_, text| text.truncate(text.len() - 1)),
    Damage::Text(refuse_start),
    Damage::Text(|random, text| lengthen(random, text, 0)),
    Damage::Text(|random, text| {
        let over = random.pick(&[1, 2, 5_000]);
        lengthen(random, text, over);
    }),
    Damage::Text(end_blank),
];

/// A damaged text; seeds in a row go through the kinds of damage.
pub fn make(random: &mut Random, seed: u64, steps: usize) -> Vec<u8> {
    let counts = [random.within(1..=12), random.within(1..=40), 3];
    let mut script = Script::new(counts, steps);
    while !script.is_full() {
        mixed_step(random, &mut script, 12);
    }
    let mut text = script.text().into_bytes();
    match DAMAGES[(seed % DAMAGES.len() as u64) as usize] {
        Damage::Text(damage) => damage(random, &mut text),
        Damage::Line(damage) => text = with_damaged_line(random, &text, damage),
    }
    text
}

fn with_damaged_line(
    random: &mut Random,
    text: &[u8],
    damage: fn(&mut Random, &mut Vec<u8>),
) -> Vec<u8> {
    let whole = text.strip_suffix(b"\n").unwrap_or(text);
    let lines = whole.split(|&byte| byte == b'\n');
    let mut lines: Vec<Vec<u8>> = lines.map(<[u8]>::to_vec).collect();
    let last = lines.len() as u32 - 1;
    let chosen = random.within(0..=last);
    let chosen = random.pick(&[0, last, chosen, chosen, chosen]);
    damage(random, &mut lines[chosen as usize]);
    let mut damaged = lines.join(&b'\n');
    if !random.once_in(3) {
        damaged.push(b'\n');
    }
    damaged
}

fn put_in(line: &mut Vec<u8>, place: usize, bytes: &[u8]) {
    line.splice(place..place, bytes.iter().copied());
}

fn put_anywhere(random: &mut Random, line: &mut Vec<u8>, bytes: &[u8]) {
    let place = random.within(0..=line.len() as u32) as usize;
    put_in(line, place, bytes);
}

fn put_at_gap(random: &mut Random, line: &mut Vec<u8>, bytes: &[u8]) {
    let gaps: Vec<usize> = (0..line.len()).filter(|&n| line[n] == b' ').collect();
    let gap = random.pick(&gaps);
    put_in(line, gap, bytes);
}

fn put_before_number(random: &mut Random, line: &mut Vec<u8>, bytes: &[u8]) {
    let starts = (0..line.len()).filter(|&n| n == 0 || line[n - 1] == b' ');
    let starts: Vec<usize> = starts.collect();
    let start = random.pick(&starts);
    put_in(line, start, bytes);
}

fn drop_last_number(line: &mut Vec<u8>) {
    let gap = line.iter().rposition(|&byte| byte == b' ');
    line.truncate(gap.unwrap_or(0));
}

/// Gives counts out of range, with a bad line behind them that must not be looked at.
fn refuse_start(random: &mut Random, text: &mut Vec<u8>) {
    let counts = random.pick(&[
        "0 8 1",
        "193 8 1",
        "4 0 1",
        "4 1025 1",
        "4 8 33",
        "4294967295 4294967295 4294967295",
        "00 00 00",
    ]);
    let tail = random.pick(&["\n", "\n\n", "\nbad\n", "\n3 0 0 0 0 0\n", ""]);
    *text = format!("{counts}{tail}").into_bytes();
}

/// Fills the text up with leading zeros to the limit and so many bytes over it.
fn lengthen(random: &mut Random, text: &mut Vec<u8>, over: usize) {
    let zeros = vec![b'0'; (MOST_BYTES + over).saturating_sub(text.len())];
    put_before_number(random, text, &zeros);
}

fn end_blank(random: &mut Random, text: &mut Vec<u8>) {
    let tail = random.pick(&["\n", "\n\n", " ", "3", "\r\n"]);
    text.extend(tail.as_bytes());
    if random.once_in(4) {
        *text = random
            .pick(&["\n", "\n\n", " ", " \n", "\0", "\r\n"])
            .into();
    }
}
