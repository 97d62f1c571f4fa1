//! The three calls on one text, each compared with the reference.

use luzafoma::{MOST_STATES, Refusal};
use reference::{Answer, Sheet};

/// Bytes before and after each buffer, which a call must leave alone.
const EDGE: usize = 24;

/// What has been compared so far.
pub struct Tally {
    title: &'static str,
    /// Texts.
    pub texts: usize,
    /// Plans that were written.
    pub plans: usize,
    /// Answers that there is no plan.
    pub no_plans: usize,
    duals: usize,
    calls: usize,
    bytes: usize,
    refused: [usize; 17],
    /// The most actions of a plan.
    pub longest: usize,
}

impl Tally {
    pub fn new(title: &'static str) -> Self {
        Self {
            title,
            texts: 0,
            plans: 0,
            no_plans: 0,
            duals: 0,
            calls: 0,
            bytes: 0,
            refused: [0; 17],
            longest: 0,
        }
    }

    /// How many calls were refused with a number.
    pub fn refused(&self, number: usize) -> usize {
        self.refused[number]
    }

    /// How many calls were refused for their text.
    pub fn refused_texts(&self) -> usize {
        self.refused[1..=6].iter().sum()
    }

    pub fn print(&self) {
        let refused: Vec<String> = self
            .refused
            .iter()
            .enumerate()
            .filter(|(_, count)| **count > 0)
            .map(|(number, count)| format!("{number}: {count}"))
            .collect();
        eprintln!(
            "{}: {} texts, {} calls; {} plans (longest {}), {} times no plan, {} duals; \
             refused {}; {} bytes of buffers",
            self.title,
            self.texts,
            self.calls,
            self.plans,
            self.longest,
            self.no_plans,
            self.duals,
            if refused.is_empty() {
                "none".to_owned()
            } else {
                refused.join(", ")
            },
            self.bytes
        );
    }

    /// Compares all three calls on a text, with buffers of several lengths.
    pub fn check(&mut self, text: &[u8]) {
        self.texts += 1;
        let read = reference::read(text);
        self.check_try(text);

        // Buffers around the length that matters, and an empty one.
        let mut places = match &read {
            Err(_) => vec![0, 40],
            Ok(sheet) => match sheet.plan(MOST_STATES, usize::MAX) {
                Answer::Plan { actions, .. } => {
                    let length = actions.len();
                    vec![0, length.saturating_sub(1), length, length + 1, MOST_STATES]
                }
                _ => vec![0, MOST_STATES],
            },
        };
        places.dedup();
        for places in places {
            self.check_plan(text, places);
        }

        let length = text.len();
        let mut sizes = match read {
            Err(_) => vec![0, length + 5],
            Ok(_) => vec![0, length - 1, length, length + 1, length + 50],
        };
        sizes.dedup();
        for size in sizes {
            self.check_dual(text, size);
        }
        self.check_vectors(text);
    }

    fn check_try(&mut self, text: &[u8]) {
        let wanted = reference::read(text)
            .map(|_| ())
            .map_err(|refused| refused.number);
        let answer = luzafoma::try_text(text);
        self.count(answer.err());
        assert_eq!(answer.map_err(number), wanted, "try: {}", Shown(text));
    }

    /// Compares the call for a plan with a buffer of so many places.
    pub fn check_plan(&mut self, text: &[u8], places: usize) {
        let mut buffer = Buffer::new(places, self.calls);
        let answer = luzafoma::plan(text, buffer.inner());
        self.count(answer.err());
        self.bytes += places;

        let read = reference::read(text);
        let wanted = match &read {
            Err(refused) => Answer::Refused(refused.number),
            Ok(sheet) => sheet.plan(MOST_STATES, places),
        };
        let shown = || format!("plan in {places} places: {}", Shown(text));
        match wanted {
            Answer::Refused(wanted) => {
                assert_eq!(answer.map_err(number), Err(wanted), "{}", shown());
                assert_eq!(buffer.written(0), [], "{}", shown());
            }
            Answer::NoPlan { .. } => {
                assert_eq!(answer, Ok(None), "{}", shown());
                assert_eq!(buffer.written(0), [], "{}", shown());
                self.no_plans += 1;
            }
            Answer::Plan { actions, .. } => {
                assert_eq!(answer, Ok(Some(actions.len())), "{}", shown());
                let plan = buffer.written(actions.len());
                let sheet: Sheet<'_> = read.expect("it was planned");
                assert!(sheet.is_plan(plan), "{plan:?} is no plan; {}", shown());
                let backwards: Vec<u8> = plan.iter().rev().copied().collect();
                assert!(
                    sheet.dual().is_plan(&backwards),
                    "{plan:?} backwards; {}",
                    shown()
                );
                self.plans += 1;
                self.longest = self.longest.max(plan.len());
            }
        }
    }

    fn check_dual(&mut self, text: &[u8], size: usize) {
        let mut buffer = Buffer::new(size, self.calls);
        let answer = luzafoma::dualise(text, buffer.inner());
        self.count(answer.err());
        self.bytes += size;

        let wanted = match reference::dual(text) {
            Err(refused) => Err(refused.number),
            Ok(dual) if dual.len() > size => Err(14),
            Ok(dual) => Ok(dual),
        };
        let shown = || format!("dual in {size} bytes: {}", Shown(text));
        match wanted {
            Err(wanted) => {
                assert_eq!(answer.map_err(number), Err(wanted), "{}", shown());
                assert_eq!(buffer.written(0), [], "{}", shown());
            }
            Ok(dual) => {
                assert_eq!(answer, Ok(text.len()), "{}", shown());
                assert!(buffer.written(text.len()) == dual, "{}", shown());
                self.duals += 1;
            }
        }
    }

    /// The two calls that return vectors say what the others say.
    fn check_vectors(&mut self, text: &[u8]) {
        let read = reference::read(text);
        let wanted = match &read {
            Err(refused) => Err(refused.number),
            Ok(sheet) => match sheet.plan(MOST_STATES, MOST_STATES) {
                Answer::Plan { actions, .. } => Ok(Some(actions.len())),
                Answer::NoPlan { .. } => Ok(None),
                Answer::Refused(number) => Err(number),
            },
        };
        let plan = luzafoma::plan_to_vec(text);
        self.count(plan.as_ref().err().copied());
        if let (Ok(Some(plan)), Ok(sheet)) = (&plan, &read) {
            assert!(sheet.is_plan(plan), "vector: {}", Shown(text));
        }
        let length = plan.map(|plan| plan.map(|plan| plan.len()));
        assert_eq!(length.map_err(number), wanted, "vector: {}", Shown(text));

        let dual = luzafoma::dual(text);
        self.count(dual.as_ref().err().copied());
        if let Ok(dual) = &dual {
            let again = luzafoma::dual(dual);
            assert!(
                again.as_deref() == Ok(text),
                "dual of the dual: {}",
                Shown(text)
            );
        }
        let wanted = reference::dual(text).map_err(|refused| refused.number);
        assert!(dual.map_err(number) == wanted, "vector: {}", Shown(text));
    }

    fn count(&mut self, refusal: Option<Refusal>) {
        self.calls += 1;
        if let Some(refusal) = refusal {
            self.refused[usize::from(number(refusal))] += 1;
        }
    }
}

fn number(refusal: Refusal) -> u8 {
    refusal
        .number()
        .unwrap_or_else(|| panic!("an unknown answer: {refusal}"))
}

/// A buffer filled with a pattern, in the middle of a longer one.
struct Buffer {
    bytes: Vec<u8>,
    before: Vec<u8>,
    length: usize,
}

impl Buffer {
    fn new(length: usize, seed: usize) -> Self {
        let before: Vec<u8> = (0..length + 2 * EDGE)
            .map(|place| (place.wrapping_mul(151) ^ (place >> 8) ^ seed.wrapping_mul(29)) as u8)
            .collect();
        Self {
            bytes: before.clone(),
            before,
            length,
        }
    }

    /// The bytes that the call is given.
    fn inner(&mut self) -> &mut [u8] {
        &mut self.bytes[EDGE..EDGE + self.length]
    }

    /// The first bytes that the call was given; all others, those around the
    /// buffer too, must still be as they were.
    #[track_caller]
    fn written(&self, length: usize) -> &[u8] {
        let end = EDGE + length;
        assert!(
            self.bytes[..EDGE] == self.before[..EDGE],
            "bytes before the buffer changed"
        );
        assert!(
            self.bytes[end..] == self.before[end..],
            "bytes past the end changed"
        );
        &self.bytes[EDGE..end]
    }
}

/// A text as a message shows it.
pub struct Shown<'a>(pub &'a [u8]);

impl std::fmt::Display for Shown<'_> {
    fn fmt(&self, f: &mut std::fmt::Formatter<'_>) -> std::fmt::Result {
        let start = &self.0[..self.0.len().min(3_000)];
        write!(f, "{} bytes: \"{}\"", self.0.len(), start.escape_ascii())
    }
}
