//! Makes inputs: the same profile, seed and length always give the same text.

mod boards;
mod cleaning;
mod damage;
mod deep;
mod packed;
mod random;
mod script;
mod tiny;
mod wild;

use random::Random;

/// What kind of input is made.
#[derive(Clone, Copy, Debug, PartialEq, Eq)]
pub enum Profile {
    Tiny,
    Deep,
    Cleaning,
    Boards,
    Wild,
    Text,
}

impl Profile {
    pub const ALL: [Profile; 6] = [
        Profile::Tiny,
        Profile::Deep,
        Profile::Cleaning,
        Profile::Boards,
        Profile::Wild,
        Profile::Text,
    ];

    pub fn name(self) -> &'static str {
        match self {
            Profile::Tiny => "tiny",
            Profile::Deep => "deep",
            Profile::Cleaning => "cleaning",
            Profile::Boards => "boards",
            Profile::Wild => "wild",
            Profile::Text => "text",
        }
    }

    pub fn named(name: &str) -> Option<Profile> {
        let mut all = Profile::ALL.into_iter();
        all.find(|profile| profile.name() == name)
    }

    /// How many steps are made unless another number is asked for.
    pub fn default_steps(self) -> usize {
        match self {
            Profile::Tiny => 300,
            Profile::Deep | Profile::Cleaning => 600,
            Profile::Boards | Profile::Wild => 400,
            Profile::Text => 100,
        }
    }
}

/// Makes an input text; only the text profile may give one that is too long.
pub fn make(profile: Profile, seed: u64, steps: usize) -> Vec<u8> {
    let mut random = Random::new(seed, profile as u64);
    match profile {
        Profile::Tiny => tiny::make(&mut random, steps),
        Profile::Deep => deep::make(&mut random, steps),
        Profile::Cleaning => cleaning::make(&mut random, steps),
        Profile::Boards => boards::make(&mut random, steps),
        Profile::Wild => wild::make(&mut random, steps),
        Profile::Text => return damage::make(&mut random, seed, steps),
    }
    .text()
    .into_bytes()
}
