//! Sound stores with one damage each, for every rule that a judge of a lent store tests, and sound ones at the rules' edges.

mod bases;
mod boards;
mod edges;
mod entries;
mod header;
mod lent;
mod pages;

use lent::Lent;

/// One change of a sound store's words.
pub struct Damage {
    /// The number that the damaged store gives.
    pub number: u32,
    /// What the checker complains of, once for each rule that it finds broken.
    pub complaints: &'static [&'static str],
    base: fn() -> Lent,
    change: fn(&mut Lent),
}

impl Damage {
    pub fn words(&self) -> Vec<u32> {
        let mut store = (self.base)();
        (self.change)(&mut store);
        store.words
    }
}

const fn sound(base: fn() -> Lent, change: fn(&mut Lent)) -> Damage {
    Damage {
        number: 0,
        complaints: &[],
        base,
        change,
    }
}

const fn unsound(
    complaints: &'static [&'static str],
    base: fn() -> Lent,
    change: fn(&mut Lent),
) -> Damage {
    Damage {
        number: 3,
        complaints,
        base,
        change,
    }
}

/// All of them: first the sound ones, then by the numbers and rules.
pub fn damages() -> impl Iterator<Item = &'static Damage> {
    [
        edges::EDGES,
        header::DAMAGES,
        pages::DAMAGES,
        entries::DAMAGES,
        boards::DAMAGES,
    ]
    .into_iter()
    .flatten()
}

/// The words of each in a line.
pub fn damaged() -> String {
    let lines = damages().map(|damage| {
        let words: Vec<String> = damage.words().iter().map(u32::to_string).collect();
        words.join(" ") + "\n"
    });
    lines.collect()
}
