use crate::{Xorshift, random_name};

/// A sheet to be written. In the sets, bit `i` stands for fact `i`; there is
/// room for more facts than a sheet may have.
#[derive(Clone, Debug, Default)]
pub struct Draft {
    /// The names of the facts.
    pub facts: Vec<String>,
    /// The facts that hold at the start.
    pub now: u128,
    /// The facts that are wished for.
    pub wish: u128,
    /// Each action's name and what it needs, adds and deletes.
    pub actions: Vec<(String, u128, u128, u128)>,
}

impl Draft {
    /// A sheet of so many facts, without actions; nothing holds and nothing is
    /// wished for.
    #[must_use]
    pub fn new(facts: usize) -> Self {
        Self {
            facts: (0..facts).map(|fact| format!("f{fact}")).collect(),
            ..Self::default()
        }
    }

    /// Adds an action.
    pub fn act(&mut self, name: impl Into<String>, needs: u128, adds: u128, deletes: u128) {
        self.actions.push((name.into(), needs, adds, deletes));
    }

    /// Adds actions without marks until there are so many.
    pub fn fill(&mut self, actions: usize) {
        for number in self.actions.len()..actions {
            self.act(format!("idle{number}"), 0, 0, 0);
        }
    }

    /// The text of the sheet.
    #[must_use]
    pub fn text(&self) -> Vec<u8> {
        let has = |set: u128, fact: usize| set >> fact & 1 == 1;
        let line = |head: &str, word: &dyn Fn(usize) -> String| {
            let words = (0..self.facts.len()).map(|fact| format!(" {}", word(fact)));
            format!("{head}{}\n", words.collect::<String>())
        };
        let pick = |set: u128, one: &'static str, zero: &'static str| {
            move |fact: usize| if has(set, fact) { one } else { zero }.to_owned()
        };
        let mut text = line("line", &|fact| self.facts[fact].clone());
        text += &line("now", &pick(self.now, "1", "0"));
        text += &line("wish", &pick(self.wish, "1", "-"));
        for (name, needs, adds, deletes) in &self.actions {
            text += &line(name, &|fact| {
                let letters = [(*needs, 'p'), (*adds, 'a'), (*deletes, 'd')];
                let mark: String = letters
                    .iter()
                    .filter(|(set, _)| has(*set, fact))
                    .map(|(_, letter)| letter)
                    .collect();
                if mark.is_empty() {
                    "-".to_owned()
                } else {
                    mark
                }
            });
        }
        text.into_bytes()
    }
}

/// A counter of so many bits from 0 up to `top`: one state leads to just one
/// other, so the plan has `top` actions and `top + 1` states are counted.
///
/// Bit `i` has two facts: number `2i` says that it is 1, number `2i + 1` that it
/// is 0. Without a `top`, the wish is for a bit that is both, and every state is
/// counted in vain.
#[must_use]
pub fn counter(bits: usize, top: Option<usize>) -> Draft {
    let mut draft = Draft::new(2 * bits);
    for bit in 0..bits {
        let (one, zero) = (1_u128 << (2 * bit), 2_u128 << (2 * bit));
        draft.facts[2 * bit] = format!("one{bit}");
        draft.facts[2 * bit + 1] = format!("zero{bit}");
        draft.now |= zero;
        draft.wish |= match top {
            Some(top) if top >> bit & 1 == 1 => one,
            Some(_) => zero,
            None => one | zero,
        };
        // Carries: the bits below go from 1 to 0, this one from 0 to 1.
        let (ones, zeros) = (0..bit).fold((0, 0), |(ones, zeros), lower| {
            (ones | 1 << (2 * lower), zeros | 2 << (2 * lower))
        });
        draft.act(format!("up{bit}"), ones | zero, zeros | one, ones | zero);
    }
    draft
}

/// Facts that can each be added at any time. A wish for `wished` of them is met
/// after as many actions, when all states with at most so many are counted.
#[must_use]
pub fn free_bits(facts: usize, wished: usize) -> Draft {
    let mut draft = Draft::new(facts);
    draft.wish = (1_u128 << wished) - 1;
    for fact in 0..facts {
        draft.act(format!("set{fact}"), 0, 1 << fact, 0);
    }
    draft
}

/// 64 facts that can each be added, and a wish for the two in `wish`, which is
/// met after two actions. Without more, 2,081 states are counted: the empty one,
/// 64 of one fact and 2,016 of two. Each of the pairs `(0, 2)`, `(0, 3)` and so
/// on that are to be `apart` makes them one fewer; at most 61 can be.
#[must_use]
pub fn pairs(apart: usize, wish: [usize; 2]) -> Draft {
    let mut draft = free_bits(64, 0);
    draft.wish = 1 << wish[0] | 1 << wish[1];
    for other in 2..2 + apart {
        draft.actions[0].3 |= 1 << other;
        draft.actions[other].3 |= 1;
    }
    draft
}

/// An accepted sheet of exactly so many bytes, with 64 facts and 256 actions and
/// names of 16 letters. It can have from 38,478 to 71,246 bytes.
///
/// # Panics
///
/// Panics if the length is out of this range.
pub fn exact_length(random: &mut Xorshift, length: usize) -> Draft {
    let name =
        |random: &mut Xorshift, number: usize| format!("{}{number:03}", random_name(random, 13));
    let mut draft = Draft::new(64);
    for (number, fact) in draft.facts.iter_mut().enumerate() {
        *fact = name(random, number);
    }
    draft.now = random.set(64, 80);
    draft.wish = random.set(64, 10);
    for number in 0..256 {
        let name = name(random, number);
        draft.act(name, 0, 0, 0);
    }

    let shortest = draft.text().len();
    assert!((shortest..=shortest + 2 * 64 * 256).contains(&length));
    // A mark of one letter is as long as `-`; then each letter is a byte.
    let mut missing = length - shortest;
    for (_, needs, adds, deletes) in &mut draft.actions {
        for fact in 0..64 {
            match random.below(4) {
                0 => {}
                1 => *needs |= 1 << fact,
                2 => *adds |= 1 << fact,
                _ => *deletes |= 1 << fact,
            }
        }
    }
    while missing > 0 {
        let action = random.below(256);
        let fact = random.below(64);
        let (_, needs, adds, deletes) = &mut draft.actions[action];
        let bit = 1 << fact;
        let empty = (*needs | *adds | *deletes) & bit == 0;
        let set = match random.below(3) {
            0 => needs,
            1 => adds,
            _ => deletes,
        };
        if *set & bit == 0 {
            *set |= bit;
            missing -= usize::from(!empty);
        }
    }
    draft
}
