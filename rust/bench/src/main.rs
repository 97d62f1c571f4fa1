//! Times of the proved planner and the reference on the same sheets.
//!
//! ```text
//! cargo run --release -p bench
//! ```

#![forbid(unsafe_code)]

use std::hint::black_box;
use std::time::{Duration, Instant};

use compare::{Draft, Xorshift, counter, exact_length};
use luzafoma::{LONGEST_PLAN, MOST_STATES};
use reference::Answer;

/// How often each of the two is timed, at least and at most, and for how long.
const LEAST: usize = 3;
const MOST: usize = 101;
const BUDGET: Duration = Duration::from_millis(600);

fn main() {
    println!("Both planners get the same text, made beforehand, in this one process, in turns.");
    println!("One call of each is not timed: it warms the caches, and the answers are compared.");
    println!(
        "Then come {LEAST} to {MOST} calls of each, up to about {BUDGET:?}; medians are shown."
    );
    println!("Proved: the whole call, which reads the text and plans or writes. Its buffer is");
    println!("allocated and zeroed once for each sheet, before the times are taken.");
    println!("Reference: read and plan or write; it allocates its own memory within the time.");
    println!();
    plans();
    println!();
    texts();
}

/// Growing numbers of states and of actions, with a plan and without.
fn plans() {
    println!("deep: one state leads to one other; wide: all sets of some facts.");
    println!(
        "{:>5} {:>7} {:>6} {:>6} {:>6} {:>7} {:>13} {:>13} {:>8} {:>6}",
        "shape",
        "actions",
        "answer",
        "length",
        "rows",
        "bytes",
        "proved",
        "reference",
        "ratio",
        "calls"
    );
    for (shape, make) in [
        ("deep", deep as fn(usize, usize, bool) -> Draft),
        ("wide", wide),
    ] {
        for bits in [6, 9, 11] {
            for actions in [0, 64, 256] {
                for found in [true, false] {
                    plan_row(shape, &make(bits, actions, found).text());
                }
            }
        }
    }
}

fn plan_row(shape: &str, text: &[u8]) {
    let sheet = reference::read(text).expect("a sheet");
    let mut buffer = vec![0; LONGEST_PLAN];
    let answer = luzafoma::plan(text, &mut buffer);
    let (name, length, rows) = match sheet.plan(MOST_STATES, LONGEST_PLAN) {
        Answer::Plan { actions, rows } => {
            assert_eq!(answer, Ok(Some(actions.len())));
            assert!(sheet.is_plan(&buffer[..actions.len()]));
            ("plan", actions.len(), rows)
        }
        Answer::NoPlan { rows } => {
            assert_eq!(answer, Ok(None));
            ("none", 0, rows)
        }
        Answer::Refused(number) => panic!("refused with {number}"),
    };
    let times = measure(
        || luzafoma::plan(black_box(text), black_box(&mut buffer)),
        || reference::read(black_box(text)).map(|sheet| sheet.plan(MOST_STATES, LONGEST_PLAN)),
    );
    println!(
        "{shape:>5} {:>7} {name:>6} {length:>6} {rows:>6} {:>7} {times}",
        sheet.actions().len(),
        text.len()
    );
}

/// Reading and writing alone, on short and long texts.
fn texts() {
    println!(
        "{:>10} {:>7} {:>7} {:>13} {:>13} {:>8} {:>6}",
        "call", "actions", "bytes", "proved", "reference", "ratio", "calls"
    );
    let mut random = Xorshift::new(1);
    for draft in [
        counter(6, None),
        wide(11, 256, true),
        exact_length(&mut random, 65_535),
    ] {
        let text = draft.text();
        let actions = draft.actions.len();
        let mut out = vec![0; text.len()];
        assert_eq!(luzafoma::try_text(&text), Ok(()));
        let times = measure(
            || luzafoma::try_text(black_box(&text)),
            || reference::read(black_box(&text)),
        );
        println!("{:>10} {actions:>7} {:>7} {times}", "try", text.len());
        assert_eq!(luzafoma::dualise(&text, &mut out), Ok(text.len()));
        assert!(reference::dual(&text).as_ref() == Ok(&out));
        let times = measure(
            || luzafoma::dualise(black_box(&text), black_box(&mut out)),
            || reference::dual(black_box(&text)),
        );
        println!("{:>10} {actions:>7} {:>7} {times}", "dualise", text.len());
    }
}

/// A counter of so many bits, filled up with actions that lead nowhere: half of
/// them are never allowed, half are often allowed and change nothing.
fn deep(bits: usize, actions: usize, found: bool) -> Draft {
    let mut draft = counter(bits, found.then_some((1 << bits) - 1));
    let mut random = Xorshift::new(2);
    while draft.actions.len() < actions {
        let bit = 2 * random.below(bits);
        let name = format!("more{}", draft.actions.len());
        if draft.actions.len().is_multiple_of(2) {
            draft.act(name, 3 << bit, 1 << (2 * random.below(bits)), 0);
        } else {
            draft.act(name, 1 << bit, 1 << bit, 0);
        }
    }
    draft
}

/// Facts that can each be added and deleted, filled up with actions that delete
/// one or two more and those that delete one and add another. None of these is a
/// shorter way to all facts, so that all sets are counted.
fn wide(facts: usize, actions: usize, found: bool) -> Draft {
    let mut draft = compare::free_bits(facts, facts);
    for fact in 0..facts {
        draft.act(format!("drop{fact}"), 1 << fact, 0, 1 << fact);
    }
    let mut random = Xorshift::new(3);
    while draft.actions.len() < actions {
        let from = 1 << random.below(facts);
        let to = 1 << random.below(facts);
        let name = format!("more{}", draft.actions.len());
        if draft.actions.len().is_multiple_of(2) {
            draft.act(name, from, to, from);
        } else {
            draft.act(name, from, 0, from | to);
        }
    }
    if !found {
        draft.facts.push("never".to_owned());
        draft.wish |= 1 << facts;
    }
    draft
}

/// The medians of both, and of how many calls.
struct Times {
    proved: Duration,
    reference: Duration,
    calls: usize,
}

impl std::fmt::Display for Times {
    fn fmt(&self, f: &mut std::fmt::Formatter<'_>) -> std::fmt::Result {
        let micros = |time: Duration| time.as_secs_f64() * 1e6;
        write!(
            f,
            "{:>10.1} us {:>10.1} us {:>8.2} {:>6}",
            micros(self.proved),
            micros(self.reference),
            self.proved.as_secs_f64() / self.reference.as_secs_f64(),
            self.calls
        )
    }
}

/// Times the two in turns.
fn measure<P, R>(mut proved: impl FnMut() -> P, mut reference: impl FnMut() -> R) -> Times {
    black_box(proved());
    black_box(reference());
    let start = Instant::now();
    let mut times = [Vec::new(), Vec::new()];
    while times[0].len() < MOST && (times[0].len() < LEAST || start.elapsed() < BUDGET) {
        times[0].push(time(&mut proved));
        times[1].push(time(&mut reference));
    }
    let calls = times[0].len();
    let [proved, reference] = times.map(median);
    Times {
        proved,
        reference,
        calls,
    }
}

/// The time until the value is there, without the time to drop it.
fn time<T>(call: &mut impl FnMut() -> T) -> Duration {
    let start = Instant::now();
    let value = black_box(call());
    let time = start.elapsed();
    drop(value);
    time
}

fn median(mut times: Vec<Duration>) -> Duration {
    times.sort_unstable();
    times[times.len() / 2]
}
