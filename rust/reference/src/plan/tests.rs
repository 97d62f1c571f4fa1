use std::collections::BTreeSet;

use super::Answer;
use crate::{Sheet, read};

const SHEET: &[u8] = b"line pods clean ground packed\n\
    now 1 1 0 0\n\
    wish - - - 1\n\
    grind pd pd a -\n\
    wash - a - -\n\
    pack - p pd a\n";

fn sheet(text: &[u8]) -> Sheet<'_> {
    read(text).unwrap()
}

/// One action for each fact, which adds it and needs nothing; what comes after
/// `wish` is given.
fn free(facts: usize, wish: &str) -> String {
    let names: String = (0..facts).map(|fact| format!(" f{fact}")).collect();
    let mut text = format!("line{names}\nnow{}\nwish{wish}\n", " 0".repeat(facts));
    for action in 0..facts {
        let marks: String = (0..facts)
            .map(|fact| if fact == action { " a" } else { " -" })
            .collect();
        text.push_str(&format!("a{action}{marks}\n"));
    }
    text
}

#[test]
fn plans_the_small_sheet() {
    let sheet = sheet(SHEET);
    let plan = Answer::Plan {
        actions: vec![0, 1, 2],
        rows: 4,
    };
    assert_eq!(sheet.plan(2_048, 2_048), plan);
    assert_eq!(sheet.plan(4, 3), plan);
    assert_eq!(sheet.plan(3, 3), Answer::Refused(15));
    assert_eq!(sheet.plan(4, 2), Answer::Refused(16));
    assert_eq!(sheet.plan(3, 2), Answer::Refused(15));
    assert_eq!(sheet.plan(usize::MAX, usize::MAX), plan);
}

#[test]
fn knows_a_plan() {
    let sheet = sheet(SHEET);
    assert!(sheet.is_plan(&[0, 1, 2]));
    assert!(sheet.is_plan(&[1, 0, 1, 1, 2]));
    assert!(!sheet.is_plan(&[]));
    assert!(!sheet.is_plan(&[0, 1]));
    assert!(!sheet.is_plan(&[0, 2]));
    assert!(!sheet.is_plan(&[0, 1, 2, 0]));
    assert!(!sheet.is_plan(&[0, 1, 3]));
    assert!(!sheet.is_plan(&[0, 1, 255]));
}

#[test]
fn plans_the_dual_backwards() {
    let sheet = sheet(SHEET);
    let dual = sheet.dual();
    let Answer::Plan { mut actions, .. } = dual.plan(2_048, 3) else {
        panic!("the dual has a plan");
    };
    actions.reverse();
    assert_eq!(actions.len(), 3);
    assert!(sheet.is_plan(&actions));
}

#[test]
fn a_wish_that_holds_has_an_empty_plan() {
    let empty = Answer::Plan {
        actions: vec![],
        rows: 1,
    };
    assert_eq!(sheet(b"line a\nnow 1\nwish 1\n").plan(1, 0), empty);
    assert_eq!(sheet(b"line a\nnow 0\nwish -\n").plan(1, 0), empty);
    assert_eq!(
        sheet(b"line a b\nnow 1 0\nwish 1 -\nx d a\n").plan(1, 0),
        empty
    );
    assert_eq!(
        sheet(b"line a\nnow 1\nwish 1\n").plan(0, 0),
        Answer::Refused(15)
    );
}

#[test]
fn no_actions_give_no_plan() {
    let sheet = sheet(b"line a\nnow 0\nwish 1\n");
    assert_eq!(sheet.plan(1, 0), Answer::NoPlan { rows: 1 });
}

#[test]
fn deletes_after_it_adds() {
    // Both added and deleted is deleted.
    let never = sheet(b"line a\nnow 0\nwish 1\nx ad\n");
    assert_eq!(never.plan(9, 9), Answer::NoPlan { rows: 1 });
    let lost = sheet(b"line a b\nnow 1 0\nwish 1 1\nx pad a\n");
    assert_eq!(lost.plan(9, 9), Answer::NoPlan { rows: 2 });
    assert!(!lost.is_plan(&[0]));
}

#[test]
fn needs_are_not_used_up() {
    let sheet = sheet(b"line a b c\nnow 1 0 0\nwish 1 1 1\nx p a -\ny p - a\n");
    assert_eq!(
        sheet.plan(9, 9),
        Answer::Plan {
            actions: vec![0, 1],
            rows: 4
        }
    );
}

#[test]
fn counts_the_last_layer_to_its_end() {
    // The first action reaches the wish at once; the other states at that
    // distance are counted all the same, those beyond are not.
    let text = free(5, " 1 - - - -");
    let plan = Answer::Plan {
        actions: vec![0],
        rows: 6,
    };
    assert_eq!(sheet(text.as_bytes()).plan(6, 1), plan);
    assert_eq!(sheet(text.as_bytes()).plan(5, 1), Answer::Refused(15));
}

#[test]
fn counts_exactly_2048() {
    let text = free(11, &" 1".repeat(11));
    let Answer::Plan { actions, rows } = sheet(text.as_bytes()).plan(2_048, 11) else {
        panic!("there is a plan");
    };
    assert_eq!((actions.len(), rows), (11, 2_048));
    assert_eq!(sheet(text.as_bytes()).plan(2_047, 11), Answer::Refused(15));
    assert_eq!(sheet(text.as_bytes()).plan(2_048, 10), Answer::Refused(16));
    // 1 + 13 + 78 + 286 + 715 states hold at most 4 of 13 facts.
    let text = free(13, &(" -".repeat(9) + &" 1".repeat(4)));
    assert!(matches!(
        sheet(text.as_bytes()).plan(1_093, 4),
        Answer::Plan { rows: 1_093, .. }
    ));
    assert_eq!(sheet(text.as_bytes()).plan(1_092, 4), Answer::Refused(15));
    // The last fact is never added, so that all states are counted.
    let text = free(12, &" 1".repeat(12));
    let text = &text[..text.find("a11").unwrap()];
    let answer = Answer::NoPlan { rows: 2_048 };
    assert_eq!(sheet(text.as_bytes()).plan(2_048, 0), answer);
    assert_eq!(sheet(text.as_bytes()).plan(2_047, 0), Answer::Refused(15));
}

#[test]
fn uses_the_last_of_64_facts_and_256_actions() {
    let idle = " -".repeat(63);
    let mut text = free(64, &format!("{idle} 1"));
    text.truncate(text.find("a0 ").unwrap());
    for action in 0..255 {
        text.push_str(&format!("b{action}{idle} -\n"));
    }
    text.push_str(&format!("last{idle} a\n"));
    assert_eq!(
        sheet(text.as_bytes()).plan(2, 1),
        Answer::Plan {
            actions: vec![255],
            rows: 2
        }
    );
}

/// The same answer by sets of states, without rows or a table.
fn slow_length_and_rows(sheet: &Sheet<'_>) -> (Option<usize>, usize) {
    let mut all = BTreeSet::from([sheet.now()]);
    for length in 0.. {
        if all.iter().any(|state| sheet.wish() & !state == 0) {
            return (Some(length), all.len());
        }
        let mut more = all.clone();
        for state in &all {
            for action in sheet.actions() {
                if state & action.needs == action.needs {
                    more.insert((state | action.adds) & !action.deletes);
                }
            }
        }
        if more == all {
            break;
        }
        all = more;
    }
    (None, all.len())
}

#[test]
fn agrees_with_a_slow_search() {
    let mut random = 0x1234_5678_9abc_def1_u64;
    let mut below = |limit: u64| {
        random ^= random << 13;
        random ^= random >> 7;
        random ^= random << 17;
        (random >> 20) % limit
    };
    let mut lengths = [0; 4];
    for _ in 0..6_000 {
        let facts = 1 + below(6);
        let mut text = String::from("line");
        (0..facts).for_each(|fact| text.push_str(&format!(" f{fact}")));
        text.push_str("\nnow");
        (0..facts).for_each(|_| text.push_str([" 0", " 0", " 1"][below(3) as usize]));
        text.push_str("\nwish");
        (0..facts).for_each(|_| text.push_str([" -", " 1"][below(2) as usize]));
        text.push('\n');
        for action in 0..below(14) {
            text.push_str(&format!("a{action}"));
            for _ in 0..facts {
                // Mostly marks of one letter, so that some plans are long.
                text.push_str(match below(32) {
                    0..18 => " -",
                    18..21 => " p",
                    21..26 => " a",
                    26 | 27 => " d",
                    28 => " pa",
                    29 => " pd",
                    30 => " ad",
                    _ => " pad",
                });
            }
            text.push('\n');
        }
        let sheet = sheet(text.as_bytes());
        let (length, counted) = slow_length_and_rows(&sheet);
        match sheet.plan(64, 64) {
            Answer::Plan { actions, rows } => {
                assert_eq!((Some(actions.len()), rows), (length, counted), "{text}");
                assert!(sheet.is_plan(&actions), "{text}");
                lengths[actions.len().min(3)] += 1;
                // A plan read backwards is one of the dual's, and as short.
                let backwards: Vec<u8> = actions.iter().rev().copied().collect();
                assert!(sheet.dual().is_plan(&backwards), "{text}");
            }
            Answer::NoPlan { rows } => assert_eq!((None, rows), (length, counted), "{text}"),
            Answer::Refused(number) => panic!("refused with {number}: {text}"),
        }
        assert_eq!(slow_length_and_rows(&sheet.dual()).0, length, "{text}");
    }
    assert!(lengths.iter().all(|&count| count > 50), "{lengths:?}");
}
