use std::error::Error;
use std::fmt;

use crate::hash::Set;
use crate::{LONGEST_TEXT, MOST_ACTIONS, MOST_FACTS};

/// Why a text is no sheet, and where.
#[derive(Clone, Copy, Debug, PartialEq, Eq, Hash)]
pub struct Refused {
    /// The refusal's number, 1 to 6.
    pub number: u8,
    /// A place in the text, counted in bytes from 0; up to the text's length.
    pub place: usize,
}

impl fmt::Display for Refused {
    fn fmt(&self, f: &mut fmt::Formatter<'_>) -> fmt::Result {
        write!(f, "refused with {} at {}", self.number, self.place)
    }
}

impl Error for Refused {}

/// An action of a sheet. In its sets, bit `i` stands for fact `i`.
#[derive(Clone, Copy, Debug, PartialEq, Eq)]
pub struct Action<'a> {
    /// The action's name.
    pub name: &'a str,
    /// The facts that it needs.
    pub needs: u64,
    /// The facts that it adds.
    pub adds: u64,
    /// The facts that it deletes, after it has added.
    pub deletes: u64,
}

impl Action<'_> {
    /// The state after the action, if it is allowed in `state`.
    #[must_use]
    pub fn after(&self, state: u64) -> Option<u64> {
        (self.needs & !state == 0).then_some((state | self.adds) & !self.deletes)
    }
}

/// A sheet that has been read: a task for the planner.
///
/// It borrows the names from its text. [`Sheet::to_text`] gives the text back,
/// byte for byte.
#[derive(Clone, Debug, PartialEq, Eq)]
pub struct Sheet<'a> {
    facts: Vec<&'a str>,
    now: u64,
    wish: u64,
    actions: Vec<Action<'a>>,
}

impl<'a> Sheet<'a> {
    /// The names of the facts.
    #[must_use]
    pub fn facts(&self) -> &[&'a str] {
        &self.facts
    }

    /// The facts that hold at the start.
    #[must_use]
    pub fn now(&self) -> u64 {
        self.now
    }

    /// The facts that are wished for.
    #[must_use]
    pub fn wish(&self) -> u64 {
        self.wish
    }

    /// The actions, in the order of their numbers.
    #[must_use]
    pub fn actions(&self) -> &[Action<'a>] {
        &self.actions
    }

    /// The number of the action with a name.
    #[must_use]
    pub fn action_number(&self, name: &str) -> Option<u8> {
        let number = self.actions.iter().position(|action| action.name == name);
        number.and_then(|number| u8::try_from(number).ok())
    }

    /// The dual sheet: what is not wished for holds, what does not hold is
    /// wished for, and every action needs what it deleted and deletes what it
    /// needed.
    #[must_use]
    pub fn dual(&self) -> Self {
        let all = u64::MAX >> (MOST_FACTS - self.facts.len());
        Self {
            facts: self.facts.clone(),
            now: all & !self.wish,
            wish: all & !self.now,
            actions: self
                .actions
                .iter()
                .map(|action| Action {
                    needs: action.deletes,
                    deletes: action.needs,
                    ..*action
                })
                .collect(),
        }
    }

    /// The text of the sheet.
    #[must_use]
    pub fn to_text(&self) -> String {
        let facts = 0..self.facts.len();
        let bit = |set: u64, fact: usize| (set >> fact & 1) as usize;

        let mut text = String::from("line");
        for name in &self.facts {
            text.push(' ');
            text.push_str(name);
        }
        text.push_str("\nnow");
        for fact in facts.clone() {
            text.push_str([" 0", " 1"][bit(self.now, fact)]);
        }
        text.push_str("\nwish");
        for fact in facts.clone() {
            text.push_str([" -", " 1"][bit(self.wish, fact)]);
        }
        text.push('\n');
        for action in &self.actions {
            text.push_str(action.name);
            for fact in facts.clone() {
                let needs = bit(action.needs, fact);
                let adds = bit(action.adds, fact);
                let deletes = bit(action.deletes, fact);
                text.push(' ');
                text.push_str(MARKS[needs | adds << 1 | deletes << 2]);
            }
            text.push('\n');
        }
        text
    }
}

/// Reads a text.
///
/// # Errors
///
/// The first refusal that holds, with its place.
pub fn read(text: &[u8]) -> Result<Sheet<'_>, Refused> {
    check_size(text)?;
    check_bytes(text)?;
    let lines: Vec<Piece<'_>> = pieces(0, &text[..text.len() - 1], b'\n').collect();
    let [facts, now, wish, actions @ ..] = lines.as_slice() else {
        return refuse(3, text.len());
    };
    check_counts(text, facts, actions)?;
    check_columns(&lines)?;
    let sheet = Sheet {
        facts: read_facts(facts)?,
        now: read_set(now, b"now", b"1", b"0")?,
        wish: read_set(wish, b"wish", b"1", b"-")?,
        actions: actions.iter().map(read_action).collect::<Result<_, _>>()?,
    };
    check_names(words(facts).skip(1))?;
    check_names(actions.iter().filter_map(|line| words(line).next()))?;
    Ok(sheet)
}

/// Returns the dual of a text.
///
/// # Errors
///
/// Those of [`read`].
pub fn dual(text: &[u8]) -> Result<Vec<u8>, Refused> {
    Ok(read(text)?.dual().to_text().into_bytes())
}

fn refuse<T>(number: u8, place: usize) -> Result<T, Refused> {
    Err(Refused { number, place })
}

/// A line without its end or a word, and where it starts in the text.
#[derive(Clone, Copy)]
struct Piece<'a> {
    start: usize,
    bytes: &'a [u8],
}

/// The pieces between separators; the first one starts at `start`.
fn pieces(start: usize, bytes: &[u8], separator: u8) -> impl Iterator<Item = Piece<'_>> {
    bytes
        .split(move |&byte| byte == separator)
        .scan(start, |next, bytes| {
            let start = *next;
            *next += bytes.len() + 1;
            Some(Piece { start, bytes })
        })
}

fn words<'a>(line: &Piece<'a>) -> impl Iterator<Item = Piece<'a>> {
    pieces(line.start, line.bytes, b' ')
}

/// The number of words after the first.
fn columns(line: &Piece<'_>) -> usize {
    line.bytes.iter().filter(|&&byte| byte == b' ').count()
}

fn check_size(text: &[u8]) -> Result<(), Refused> {
    match text.len() {
        1..=LONGEST_TEXT => Ok(()),
        _ => refuse(1, 0),
    }
}

fn check_bytes(text: &[u8]) -> Result<(), Refused> {
    let mut in_word = false;
    for (place, byte) in text.iter().enumerate() {
        in_word = match byte {
            b'a'..=b'z' | b'0'..=b'9' | b'-' => true,
            b' ' | b'\n' if in_word => false,
            _ => return refuse(2, place),
        };
    }
    match text.last() {
        Some(b'\n') => Ok(()),
        _ => refuse(2, text.len()),
    }
}

fn check_counts(text: &[u8], facts: &Piece<'_>, actions: &[Piece<'_>]) -> Result<(), Refused> {
    if columns(facts) == 0 {
        return refuse(3, text.len());
    }
    let too_many_facts = words(facts).nth(1 + MOST_FACTS);
    let too_many_actions = actions.get(MOST_ACTIONS).copied();
    match too_many_facts.or(too_many_actions) {
        Some(piece) => refuse(3, piece.start),
        None => Ok(()),
    }
}

fn check_columns(lines: &[Piece<'_>]) -> Result<(), Refused> {
    let wanted = lines.first().map(columns);
    match lines.iter().find(|line| Some(columns(line)) != wanted) {
        Some(line) => refuse(4, line.start),
        None => Ok(()),
    }
}

fn check_names<'a>(mut names: impl Iterator<Item = Piece<'a>>) -> Result<(), Refused> {
    let mut seen = Set::default();
    match names.find(|name| !seen.insert(name.bytes)) {
        Some(name) => refuse(6, name.start),
        None => Ok(()),
    }
}

fn read_facts<'a>(line: &Piece<'a>) -> Result<Vec<&'a str>, Refused> {
    let mut names = Vec::with_capacity(columns(line));
    for (column, word) in words(line).enumerate() {
        match (column, read_name(word.bytes)) {
            (0, _) if word.bytes == b"line" => {}
            (1.., Some(name)) => names.push(name),
            _ => return refuse(5, word.start),
        }
    }
    Ok(names)
}

/// Reads a line of two kinds of words after its head; `one` puts a fact into
/// the set, `zero` leaves it out.
fn read_set(line: &Piece<'_>, head: &[u8], one: &[u8], zero: &[u8]) -> Result<u64, Refused> {
    let mut set = 0;
    for (column, word) in words(line).enumerate() {
        match column {
            0 if word.bytes == head => {}
            1.. if word.bytes == one => set |= 1 << (column - 1),
            1.. if word.bytes == zero => {}
            _ => return refuse(5, word.start),
        }
    }
    Ok(set)
}

fn read_action<'a>(line: &Piece<'a>) -> Result<Action<'a>, Refused> {
    let mut action = Action {
        name: "",
        needs: 0,
        adds: 0,
        deletes: 0,
    };
    for (column, word) in words(line).enumerate() {
        if column == 0 {
            let Some(name) = read_name(word.bytes) else {
                return refuse(5, word.start);
            };
            action.name = name;
        } else {
            let Some(mark) = read_mark(word.bytes) else {
                return refuse(5, word.start);
            };
            let fact = column - 1;
            action.needs |= (mark & 1) << fact;
            action.adds |= (mark >> 1 & 1) << fact;
            action.deletes |= (mark >> 2) << fact;
        }
    }
    Ok(action)
}

fn read_name(word: &[u8]) -> Option<&str> {
    let letters = word
        .iter()
        .all(|byte| matches!(byte, b'a'..=b'z' | b'0'..=b'9'));
    let first = matches!(word.first(), Some(b'a'..=b'z'));
    if letters && first && word.len() <= 16 {
        std::str::from_utf8(word).ok()
    } else {
        None
    }
}

/// The marks, each at the index whose bits 0, 1 and 2 say whether the action
/// needs, adds and deletes the fact.
const MARKS: [&str; 8] = ["-", "p", "a", "pa", "d", "pd", "ad", "pad"];

/// The index of a mark in [`MARKS`].
fn read_mark(word: &[u8]) -> Option<u64> {
    Some(match word {
        b"-" => 0,
        b"p" => 1,
        b"a" => 2,
        b"pa" => 3,
        b"d" => 4,
        b"pd" => 5,
        b"ad" => 6,
        b"pad" => 7,
        _ => return None,
    })
}

#[cfg(test)]
mod tests;
