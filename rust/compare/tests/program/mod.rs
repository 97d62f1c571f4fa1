//! The program `plan` on one text, compared with the reference.

use std::collections::BTreeSet;
use std::env;
use std::io::{ErrorKind, Write};
use std::path::{Path, PathBuf};
use std::process::{Command, Stdio};

use luzafoma::MOST_STATES;
use reference::Answer;

use crate::check::Shown;

/// What has been compared so far.
pub struct Tally {
    program: PathBuf,
    texts: usize,
    plans: usize,
    names: usize,
    no_plans: usize,
    refused: [usize; 17],
    /// The places that came with refusal 15; the rules say nothing of them.
    places: BTreeSet<usize>,
}

impl Tally {
    pub fn new() -> Self {
        let path = env::var_os("PLAN_PROGRAM").unwrap_or_else(|| "../../crates/plan/out/plan".into());
        let program = Path::new(env!("CARGO_MANIFEST_DIR")).join(path);
        assert!(
            program.is_file(),
            "there is no program at {}; PLAN_PROGRAM is its path",
            program.display()
        );
        Self {
            program,
            texts: 0,
            plans: 0,
            names: 0,
            no_plans: 0,
            refused: [0; 17],
            places: BTreeSet::new(),
        }
    }

    pub fn print(&self) {
        eprintln!(
            "the program: {} texts; {} plans with {} names, {} times no plan; refused {:?}; \
             places with refusal 15 (not compared): {:?}",
            self.texts,
            self.plans,
            self.names,
            self.no_plans,
            self.refused
                .iter()
                .enumerate()
                .filter(|(_, count)| **count > 0)
                .collect::<Vec<_>>(),
            self.places
        );
    }

    /// Runs the program on a text and compares all that it prints.
    pub fn check(&mut self, text: &[u8]) {
        self.texts += 1;
        let output = run(&self.program, text);
        let shown = format!("{}\nprinted:\n{output}", Shown(text));

        let body = output
            .strip_prefix("answer length rows\n")
            .unwrap_or_else(|| panic!("the first line is another: {shown}"));
        let (answer, rest) = body
            .split_once('\n')
            .unwrap_or_else(|| panic!("there is no answer: {shown}"));

        let read = reference::read(text);
        let wanted = read
            .as_ref()
            .map(|sheet| sheet.plan(MOST_STATES, MOST_STATES));
        match wanted {
            Err(refused) => {
                let wanted = format!("refused {} {}", refused.number, refused.place);
                assert_eq!(answer, wanted, "{shown}");
                assert_eq!(rest, "", "{shown}");
                self.refused[usize::from(refused.number)] += 1;
            }
            Ok(Answer::Refused(number)) => {
                let place = answer
                    .strip_prefix(&format!("refused {number} "))
                    .and_then(|place| place.parse().ok())
                    .unwrap_or_else(|| panic!("refusal {number} is expected: {shown}"));
                assert_eq!(rest, "", "{shown}");
                self.places.insert(place);
                self.refused[usize::from(number)] += 1;
            }
            Ok(Answer::NoPlan { rows }) => {
                assert_eq!(answer, format!("none 0 {rows}"), "{shown}");
                assert_eq!(rest, "", "{shown}");
                self.no_plans += 1;
            }
            Ok(Answer::Plan { actions, rows }) => {
                let wanted = format!("plan {} {rows}", actions.len());
                assert_eq!(answer, wanted, "{shown}");
                assert!(rest.is_empty() || rest.ends_with('\n'), "{shown}");
                let sheet = read.expect("it was planned");
                let numbers: Option<Vec<u8>> =
                    rest.lines().map(|name| sheet.action_number(name)).collect();
                let numbers = numbers.unwrap_or_else(|| panic!("a name of no action: {shown}"));
                assert_eq!(numbers.len(), actions.len(), "{shown}");
                assert!(sheet.is_plan(&numbers), "{shown}");
                self.plans += 1;
                self.names += numbers.len();
            }
        }
    }
}

fn run(program: &Path, text: &[u8]) -> String {
    let mut child = Command::new(program)
        .stdin(Stdio::piped())
        .stdout(Stdio::piped())
        .spawn()
        .unwrap_or_else(|error| panic!("{} does not start: {error}", program.display()));
    let mut stdin = child.stdin.take().expect("it is piped");
    match stdin.write_all(text) {
        // It may stop reading a text that is too long.
        Err(error) if error.kind() != ErrorKind::BrokenPipe => panic!("cannot write: {error}"),
        _ => drop(stdin),
    }
    let output = child.wait_with_output().expect("it ends");
    assert!(
        output.status.code().is_some(),
        "the program was stopped, {}: {}",
        output.status,
        Shown(text)
    );
    String::from_utf8(output.stdout).expect("it prints ASCII")
}
