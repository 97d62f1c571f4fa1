use std::collections::HashSet;

use crate::Draft;

/// A small generator of numbers that only look random: the same seed gives the
/// same numbers.
#[derive(Clone, Debug)]
pub struct Xorshift(u64);

impl Xorshift {
    /// A generator for a seed.
    #[must_use]
    pub fn new(seed: u64) -> Self {
        // A state of 0 would stay 0.
        let mut random = Self(seed.wrapping_mul(0x9e37_79b9_7f4a_7c15) | 1);
        for _ in 0..8 {
            random.next();
        }
        random
    }

    /// The next 64 bits.
    #[expect(clippy::should_implement_trait, reason = "there is always a next one")]
    pub fn next(&mut self) -> u64 {
        self.0 ^= self.0 >> 12;
        self.0 ^= self.0 << 25;
        self.0 ^= self.0 >> 27;
        self.0.wrapping_mul(0x2545_f491_4f6c_dd1d)
    }

    /// A number from 0 to `limit - 1`; 0 for a limit of 0.
    pub fn below(&mut self, limit: usize) -> usize {
        ((u128::from(self.next()) * limit as u128) >> 64) as usize
    }

    /// A number from `from` to `to`, both included.
    pub fn between(&mut self, from: usize, to: usize) -> usize {
        from + self.below(to - from + 1)
    }

    /// True in `percent` of 100 cases.
    pub fn chance(&mut self, percent: usize) -> bool {
        self.below(100) < percent
    }

    /// One of some values, which must not be none.
    pub fn pick<T: Copy>(&mut self, values: &[T]) -> T {
        values[self.below(values.len())]
    }

    /// A set of the first `count` bits, each in it in `percent` of 100 cases.
    pub fn set(&mut self, count: usize, percent: usize) -> u128 {
        (0..count)
            .filter(|_| self.chance(percent))
            .fold(0, |set, bit| set | 1 << bit)
    }
}

/// A name of `length` letters and digits.
pub fn random_name(random: &mut Xorshift, length: usize) -> String {
    let mut name = String::new();
    for place in 0..length {
        let letters: &[u8] = if place == 0 {
            b"abcdefghijklmnopqrstuvwxyz"
        } else {
            b"abcdefghijklmnopqrstuvwxyz0123456789"
        };
        name.push(char::from(random.pick(letters)));
    }
    name
}

/// Names, no two the same; some are words that mean something elsewhere.
fn random_names(random: &mut Xorshift, count: usize) -> Vec<String> {
    let mut seen = HashSet::new();
    let mut names = Vec::new();
    while names.len() < count {
        let name = if random.chance(10) {
            random
                .pick(&["line", "now", "wish", "p", "a", "d", "pad"])
                .to_owned()
        } else {
            let length = if random.chance(80) {
                random.between(1, 4)
            } else {
                random.between(5, 16)
            };
            random_name(random, length)
        };
        if seen.insert(name.clone()) {
            names.push(name);
        }
    }
    names
}

/// An accepted sheet with so many facts and actions. How often a fact is wished
/// for, needed, added and deleted differs from sheet to sheet.
pub fn random_sheet(random: &mut Xorshift, facts: usize, actions: usize) -> Draft {
    // In a wide sheet each action touches but a few of the facts.
    let scale = |percent: usize| {
        if facts > 8 {
            percent * 8 / facts + 1
        } else {
            percent
        }
    };
    let held = random.between(0, 60);
    let wished = scale(random.between(5, 80));
    let needed = scale(random.between(0, 50));
    let added = scale(random.between(5, 50));
    let deleted = scale(random.between(0, 40));

    let mut draft = Draft {
        facts: random_names(random, facts),
        now: random.set(facts, held),
        wish: random.set(facts, wished),
        actions: Vec::new(),
    };
    for name in random_names(random, actions) {
        let needs = random.set(facts, needed);
        let adds = random.set(facts, added);
        let deletes = random.set(facts, deleted);
        draft.act(name, needs, adds, deletes);
    }
    draft
}

/// An accepted sheet of `tokens` tokens, each at one of `places` places, with
/// `moves` moves of one token from one place to another. Its plans tend to be
/// longer than those of other random sheets.
pub fn random_walks(random: &mut Xorshift, tokens: usize, places: usize, moves: usize) -> Draft {
    let facts = tokens * places;
    let mut draft = Draft::new(facts);
    let at = |token: usize, place: usize| 1_u128 << (token * places + place);
    for token in 0..tokens {
        draft.now |= at(token, 0);
        draft.wish |= at(token, random.below(places));
    }
    for number in 0..moves {
        let token = random.below(tokens);
        let from = random.below(places);
        // Mostly to a place nearby.
        let to = if random.chance(80) {
            (from + 1) % places
        } else {
            random.below(places)
        };
        let mut needs = at(token, from);
        if random.chance(20) {
            // Only while a token, maybe another one, is at some place.
            needs |= at(random.below(tokens), random.below(places));
        }
        draft.act(
            format!("move{number}"),
            needs,
            at(token, to),
            at(token, from) & !at(token, to),
        );
    }
    shuffle(random, &mut draft);
    draft
}

/// Changes the order of the facts and that of the actions.
pub fn shuffle(random: &mut Xorshift, draft: &mut Draft) {
    for last in (1..draft.actions.len()).rev() {
        let other = random.below(last + 1);
        draft.actions.swap(last, other);
    }
    for last in (1..draft.facts.len()).rev() {
        let other = random.below(last + 1);
        draft.facts.swap(last, other);
        let swap = |set: &mut u128| {
            let differ = (*set >> last ^ *set >> other) & 1;
            *set ^= differ << last | differ << other;
        };
        // A fact that changes places with itself stays.
        if last != other {
            swap(&mut draft.now);
            swap(&mut draft.wish);
            for (_, needs, adds, deletes) in &mut draft.actions {
                [needs, adds, deletes].into_iter().for_each(swap);
            }
        }
    }
}

/// Puts a fact into one of the sets of the sheet or takes it out.
pub fn alter(random: &mut Xorshift, draft: &mut Draft) {
    let bit = 1 << random.below(draft.facts.len());
    let line = random.below(draft.actions.len() + 2);
    let set = match (line.checked_sub(2), random.below(3)) {
        (Some(action), 0) => &mut draft.actions[action].1,
        (Some(action), 1) => &mut draft.actions[action].2,
        (Some(action), _) => &mut draft.actions[action].3,
        (None, 0) => &mut draft.now,
        (None, _) => &mut draft.wish,
    };
    *set ^= bit;
}
