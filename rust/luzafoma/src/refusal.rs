use std::error::Error;
use std::fmt;

/// Why a call did not do what it was asked.
///
/// The first six are about the text. Each is tried over the whole text before
/// the next, so a text with several faults is refused for the first of them in
/// the order of this list.
#[derive(Clone, Copy, Debug, PartialEq, Eq, Hash)]
pub enum Refusal {
    /// 1: the text is empty or has more than 65,535 bytes.
    Size,
    /// 2: the bytes are not lines of words with one space between.
    Lines,
    /// 3: there are fewer than three lines, no facts, more than 64 facts or
    /// more than 256 actions.
    Counts,
    /// 4: a line has another number of words than the first line.
    Columns,
    /// 5: a word is none of those that may stand in its column.
    Word,
    /// 6: two facts or two actions have the same name.
    Repeated,
    /// 14: the buffer is shorter than the dual text.
    ShortBuffer,
    /// 15: more than 2,048 states would be counted.
    States,
    /// 16: the shortest plans have more actions than the buffer has places.
    LongPlan,
    /// An answer that the rules do not know, as the call gave it. A library
    /// that keeps to the rules never gives one.
    Other(i32),
}

impl Refusal {
    /// The refusal's number, or nothing for [`Refusal::Other`].
    ///
    /// ```no_run
    /// assert_eq!(luzafoma::Refusal::Word.number(), Some(5));
    /// ```
    #[must_use]
    pub const fn number(self) -> Option<u8> {
        Some(match self {
            Self::Size => 1,
            Self::Lines => 2,
            Self::Counts => 3,
            Self::Columns => 4,
            Self::Word => 5,
            Self::Repeated => 6,
            Self::ShortBuffer => 14,
            Self::States => 15,
            Self::LongPlan => 16,
            Self::Other(_) => return None,
        })
    }

    /// The meaning of an answer that is no result: minus a refusal's number.
    pub(crate) const fn from_answer(answer: i32) -> Self {
        match answer {
            -1 => Self::Size,
            -2 => Self::Lines,
            -3 => Self::Counts,
            -4 => Self::Columns,
            -5 => Self::Word,
            -6 => Self::Repeated,
            -14 => Self::ShortBuffer,
            -15 => Self::States,
            -16 => Self::LongPlan,
            other => Self::Other(other),
        }
    }
}

impl fmt::Display for Refusal {
    fn fmt(&self, f: &mut fmt::Formatter<'_>) -> fmt::Result {
        f.write_str(match self {
            Self::Size => "the text is empty or has more than 65,535 bytes",
            Self::Lines => "the bytes are not lines of words with one space between",
            Self::Counts => {
                "there are fewer than 3 lines, no facts, over 64 facts or over 256 actions"
            }
            Self::Columns => "a line has another number of words than the first line",
            Self::Word => "a word is none that its column allows",
            Self::Repeated => "two facts or two actions have the same name",
            Self::ShortBuffer => "the buffer is shorter than the dual text",
            Self::States => "more than 2,048 states would be counted",
            Self::LongPlan => "the shortest plans do not fit in the buffer",
            Self::Other(answer) => return write!(f, "the call gave an unknown answer, {answer}"),
        })
    }
}

impl Error for Refusal {}

#[cfg(test)]
mod tests {
    use super::Refusal;

    #[test]
    fn known_answers_are_minus_the_number() {
        for answer in -300..=300 {
            let refusal = Refusal::from_answer(answer);
            match refusal.number() {
                Some(number) => assert_eq!(answer, -i32::from(number)),
                None => assert_eq!(refusal, Refusal::Other(answer)),
            }
        }
    }

    #[test]
    fn no_answer_panics() {
        for answer in [
            i32::MIN,
            i32::MIN + 1,
            -101,
            -100,
            -99,
            -13,
            -7,
            0,
            1,
            i32::MAX,
        ] {
            let refusal = Refusal::from_answer(answer);
            assert_eq!(refusal, Refusal::Other(answer));
            assert_eq!(refusal.number(), None);
            assert!(refusal.to_string().ends_with(&answer.to_string()));
        }
    }
}
