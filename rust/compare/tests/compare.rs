//! Compares the proved planner with the reference, answer by answer and byte by
//! byte, on texts that are the same in every run.

mod check;
mod program;

use check::Tally;
use compare::{
    BYTES, Draft, Xorshift, alter, counter, damage, exact_length, free_bits, pairs, random_name,
    random_sheet, random_walks, shuffle,
};

const SHEET: &[u8] = b"line pods clean ground packed\n\
    now 1 1 0 0\n\
    wish - - - 1\n\
    grind pd pd a -\n\
    wash - a - -\n\
    pack - p pd a\n";

/// A short sheet with every kind of mark.
const SHORT: &[u8] = b"line a b2\nnow 0 1\nwish 1 -\nx - p\ny a d\na9 pa pd\nb ad pad\n";

/// How many facts and actions a sheet has: mostly few, sometimes many.
fn random_size(random: &mut Xorshift) -> (usize, usize) {
    match random.below(100) {
        0..80 => (random.between(1, 8), random.between(0, 10)),
        80..95 => (random.between(4, 16), random.between(3, 30)),
        95..98 => (random.between(1, 64), random.between(0, 64)),
        _ => (random.between(33, 64), random.between(100, 256)),
    }
}

#[test]
fn known_answers() {
    let mut tally = Tally::new("known answers");
    tally.check(SHEET);
    tally.check(SHORT);
    let mut plan = [9; 5];
    assert_eq!(luzafoma::plan(SHEET, &mut plan), Ok(Some(3)));
    assert_eq!(plan, [0, 1, 2, 9, 9]);
    let dual: &[u8] = b"line pods clean ground packed\n\
        now 1 1 1 0\n\
        wish - - 1 1\n\
        grind pd pd a -\n\
        wash - a - -\n\
        pack - d pd a\n";
    assert_eq!(luzafoma::dual(SHEET).as_deref(), Ok(dual));
    tally.check(dual);
    tally.print();
}

#[test]
fn random_sheets() {
    let mut tally = Tally::new("random sheets and their duals");
    let mut random = Xorshift::new(1);
    for _ in 0..4_000 {
        let (facts, actions) = random_size(&mut random);
        let text = random_sheet(&mut random, facts, actions).text();
        tally.check(&text);
        assert_eq!(tally.refused_texts(), 0);
        tally.check(&luzafoma::dual(&text).expect("the text was accepted"));
    }
    tally.print();
    assert!(tally.plans > 1_000 && tally.no_plans > 1_000);
    assert!(tally.refused(15) > 50 && tally.refused(16) > 500 && tally.refused(14) > 5_000);
}

/// Sheets with longer plans: counters with a few marks changed, and tokens that
/// move from place to place.
#[test]
fn random_searches() {
    let mut tally = Tally::new("random counters and walks");
    let mut random = Xorshift::new(9);
    for _ in 0..600 {
        let bits = random.between(1, 11);
        let top = random.below(1 << bits);
        let mut draft = counter(bits, Some(top));
        shuffle(&mut random, &mut draft);
        for _ in 0..random.below(4) {
            alter(&mut random, &mut draft);
        }
        tally.check(&draft.text());
    }
    for _ in 0..1_500 {
        let tokens = random.between(1, 4);
        let places = random.between(2, 13);
        let moves = random.between(2, 3 * tokens * places);
        let mut draft = random_walks(&mut random, tokens, places, moves);
        if random.chance(30) {
            alter(&mut random, &mut draft);
        }
        tally.check(&draft.text());
    }
    tally.print();
    assert_eq!(tally.refused_texts(), 0);
    assert!(tally.plans > 2_000 && tally.no_plans > 500 && tally.longest > 1_000);
    assert!(tally.refused(15) > 50);
}

/// Every byte of a small sheet taken away, put in and changed.
#[test]
fn every_byte() {
    let mut tally = Tally::new("every byte at every place");
    for sheet in [SHEET, SHORT] {
        for place in 0..sheet.len() {
            let mut text = sheet.to_vec();
            text.remove(place);
            tally.check(&text);
            for byte in 0..=255 {
                let mut text = sheet.to_vec();
                text[place] = byte;
                tally.check(&text);
            }
        }
        for place in 0..=sheet.len() {
            for byte in 0..=255 {
                let mut text = sheet.to_vec();
                text.insert(place, byte);
                tally.check(&text);
            }
        }
    }
    tally.print();
    for number in 2..=6 {
        assert!(tally.refused(number) > 0, "refusal {number}");
    }
}

/// Two faults at once: of the refusals that hold, the first counts.
#[test]
fn every_two_places() {
    let mut tally = Tally::new("two changes at every two places");
    let pool = b" \n-1paz0_";
    let mut random = Xorshift::new(2);
    for first in 0..SHORT.len() {
        for second in first + 1..SHORT.len() {
            for _ in 0..6 {
                let mut text = SHORT.to_vec();
                text[first] = random.pick(pool);
                text[second] = random.pick(pool);
                tally.check(&text);
            }
        }
    }
    tally.print();
}

/// Parts of a sheet: behind a part that is cut off stands the rest of it, which
/// must not be read.
#[test]
fn every_part() {
    let mut tally = Tally::new("every part of a sheet");
    for sheet in [SHEET, SHORT] {
        for start in 0..sheet.len() {
            for end in start..=sheet.len() {
                tally.check(&sheet[start..end]);
            }
        }
    }
    let mut random = Xorshift::new(3);
    let large = random_sheet(&mut random, 40, 60).text();
    for end in (0..=large.len()).step_by(7) {
        tally.check(&large[..end]);
    }
    tally.print();
}

/// Lines left out, written twice and swapped, and words swapped, one by one.
#[test]
fn every_line_and_word() {
    let mut tally = Tally::new("every line and word moved");
    for sheet in [SHEET, SHORT] {
        let lines: Vec<&[u8]> = sheet.split_inclusive(|&byte| byte == b'\n').collect();
        for line in 0..lines.len() {
            let mut fewer = lines.clone();
            fewer.remove(line);
            tally.check(&fewer.concat());
            for other in 0..=lines.len() {
                let mut more = lines.clone();
                more.insert(other, lines[line]);
                tally.check(&more.concat());
            }
            for other in 0..lines.len() {
                let mut swapped = lines.clone();
                swapped.swap(line, other);
                tally.check(&swapped.concat());
            }
            for inserted in [" \n", "\r\n", "\n\n", "  \n", "\t\n"] {
                let mut texts: Vec<Vec<u8>> = lines.iter().map(|line| line.to_vec()).collect();
                texts[line].pop();
                texts[line].extend(inserted.bytes());
                tally.check(&texts.concat());
            }
        }

        let words: Vec<Vec<&[u8]>> = lines
            .iter()
            .map(|line| line[..line.len() - 1].split(|&byte| byte == b' ').collect())
            .collect();
        let columns = words[0].len();
        let join = |words: &[Vec<&[u8]>]| -> Vec<u8> {
            let line = |words: &Vec<&[u8]>| [&words.join(&b' ')[..], b"\n"].concat();
            words.iter().flat_map(line).collect()
        };
        let places: Vec<(usize, usize)> = (0..words.len())
            .flat_map(|line| (0..columns).map(move |word| (line, word)))
            .collect();
        for &(line, word) in &places {
            for &(other_line, other_word) in &places {
                let mut swapped = words.clone();
                swapped[line][word] = words[other_line][other_word];
                tally.check(&join(&swapped));
                swapped[other_line][other_word] = words[line][word];
                tally.check(&join(&swapped));
                let mut moved = words.clone();
                let taken = moved[line].remove(word);
                let place = other_word.min(moved[other_line].len());
                moved[other_line].insert(place, taken);
                if moved.iter().all(|line| !line.is_empty()) {
                    tally.check(&join(&moved));
                }
            }
        }
    }
    tally.print();
}

#[test]
fn random_damage() {
    let mut tally = Tally::new("random sheets with 1 to 4 faults");
    let mut random = Xorshift::new(4);
    for _ in 0..20_000 {
        let (facts, actions) = random_size(&mut random);
        let mut text = random_sheet(&mut random, facts, actions.min(40)).text();
        for _ in 0..random.pick(&[1, 1, 1, 2, 3, 4]) {
            damage(&mut random, &mut text);
        }
        tally.check(&text);
    }
    tally.print();
    for number in 2..=6 {
        assert!(tally.refused(number) > 100, "refusal {number}");
    }
}

#[test]
fn random_bytes() {
    let mut tally = Tally::new("random bytes");
    let mut random = Xorshift::new(5);
    for _ in 0..10_000 {
        let length = random.below(64);
        let text: Vec<u8> = match random.below(3) {
            0 => (0..length).map(|_| random.next() as u8).collect(),
            1 => (0..length).map(|_| random.pick(BYTES)).collect(),
            _ => (0..length).map(|_| random.pick(b"aa1- \n")).collect(),
        };
        tally.check(&text);
    }
    tally.print();
}

/// Every number of facts and of actions around the bounds, with faults of other
/// kinds too.
#[test]
fn counts_at_their_bounds() {
    let mut tally = Tally::new("numbers of facts and actions");
    for facts in [0, 1, 2, 3, 62, 63, 64, 65, 66, 67, 100] {
        for actions in [0, 1, 2, 254, 255, 256, 257, 258, 300] {
            let mut draft = Draft::new(facts);
            draft.fill(actions);
            let whole = draft.text();
            tally.check(&whole);
            for wish in [1, 1 << facts.max(1) >> 1] {
                draft.wish = wish;
                tally.check(&draft.text());
            }
            // The first 0 to 4 lines, and no line end.
            let ends = whole.iter().enumerate().filter(|(_, byte)| **byte == b'\n');
            for (end, _) in ends.take(4) {
                tally.check(&whole[..end]);
                tally.check(&whole[..=end]);
            }
            tally.check(&whole[..whole.len() - 1]);
            tally.check(&[&whole[..whole.len() - 1], b" -\n"].concat());
            tally.check(&[&whole[..whole.len() - 1], b" ?\n"].concat());
            for (old, new) in [
                ("line", "nine"),
                ("now", "when"),
                ("wish", "wishes"),
                ("wish", "wish -"),
                (" f1 ", " f0 "),
                (" f1 ", " -f1 "),
                ("\nidle1 ", "\nidle0 "),
                ("\nidle1 ", "\nidle1 - "),
                ("\nidle1 ", "\n1dle "),
            ] {
                let text = String::from_utf8(whole.clone()).unwrap();
                tally.check(text.replacen(old, new, 1).as_bytes());
            }
        }
    }
    tally.print();
    assert!(tally.refused(3) > 100);
}

/// The last fact and the last action work like the others.
#[test]
fn last_facts_and_actions() {
    let mut tally = Tally::new("the last facts and actions");
    for facts in [1, 2, 31, 32, 33, 63, 64] {
        for actions in [1, 2, 127, 128, 129, 255, 256] {
            let last = 1_u128 << (facts - 1);
            for (needs, adds, deletes) in [
                (0, last, 0),
                (last, last, 0),
                (0, last, last),
                (1, last, 0),
                (0, last, 1),
            ] {
                let mut draft = Draft::new(facts);
                draft.fill(actions - 1);
                draft.act("last", needs, adds, deletes);
                draft.wish = last;
                for now in [0, 1, last, (last - 1) | last] {
                    draft.now = now;
                    tally.check(&draft.text());
                }
            }
        }
    }
    tally.print();
    assert!(tally.plans > 0 && tally.no_plans > 0);
}

#[test]
fn names_at_their_bounds() {
    let mut tally = Tally::new("names");
    let mut random = Xorshift::new(6);
    for length in [1, 2, 7, 8, 9, 14, 15, 16, 17, 18, 32, 64] {
        for _ in 0..20 {
            for place in 0..4 {
                let mut draft = random_sheet(&mut random, 2, 2);
                draft.facts[0] = "fact".to_owned();
                draft.facts[1] = "fact2".to_owned();
                draft.actions[0].0 = "act".to_owned();
                draft.actions[1].0 = "act2".to_owned();
                let name = random_name(&mut random, length);
                // The same name, one that differs at one place, and a part.
                let other = match random.below(4) {
                    0 => name.clone(),
                    1 => name[..length - 1].to_owned() + "z",
                    2 => format!("q{}", &name[1..]),
                    _ => name[..random.between(1, length)].to_owned(),
                };
                match place {
                    0 => draft.facts = vec![name, other],
                    1 => draft.facts = vec![other, name],
                    2 => (draft.actions[0].0, draft.actions[1].0) = (name, other),
                    _ => (draft.facts[1], draft.actions[1].0) = (name, other),
                }
                tally.check(&draft.text());
            }
        }
    }
    // The same name at every two of several places.
    for first in 0..64 {
        for second in first + 1..64 {
            let mut draft = Draft::new(64);
            draft.facts[second] = draft.facts[first].clone();
            tally.check(&draft.text());
        }
    }
    for first in (0..256).step_by(5) {
        for second in (first + 1..256).step_by(7) {
            let mut draft = Draft::new(1);
            draft.fill(256);
            draft.actions[second].0 = draft.actions[first].0.clone();
            tally.check(&draft.text());
        }
    }
    tally.print();
    assert!(tally.refused(5) > 0 && tally.refused(6) > 2_016);
}

#[test]
fn lengths_at_their_bounds() {
    let mut tally = Tally::new("lengths of texts");
    let mut random = Xorshift::new(7);
    for length in [65_533, 65_534, 65_535, 65_536, 65_537, 70_000] {
        let accepted = exact_length(&mut random, length).text();
        assert_eq!(accepted.len(), length);
        tally.check(&accepted);
        tally.check(&accepted[1..]);
        tally.check(&accepted[..length - 1]);
        for byte in *b"a- \n_" {
            tally.check(&vec![byte; length]);
        }
        for _ in 0..10 {
            let mut damaged = accepted.clone();
            damage(&mut random, &mut damaged);
            tally.check(&damaged);
        }
    }
    for length in [0, 1, 2, 3, 100_000, 131_071, 131_072, 1 << 20] {
        for byte in *b"a\n" {
            tally.check(&vec![byte; length]);
        }
    }
    tally.print();
    assert!(tally.refused(1) > 20);
}

/// Counted states exactly at and next to 2,048, of the shapes that reach them:
/// one after the other, all of a set, and in a wide last layer.
#[test]
fn states_at_their_bound() {
    let mut tally = Tally::new("2,048 states");
    let mut seen = Vec::new();
    let mut check = |draft: &Draft| {
        let text = draft.text();
        tally.check(&text);
        let sheet = reference::read(&text).expect("a sheet");
        match sheet.plan(usize::MAX, usize::MAX) {
            reference::Answer::Plan { rows, .. } => seen.push((true, rows)),
            reference::Answer::NoPlan { rows } => seen.push((false, rows)),
            reference::Answer::Refused(number) => panic!("refused with {number}"),
        }
    };

    // One after the other; the longest plan has 2,047 actions.
    for top in [
        0, 1, 2, 254, 255, 256, 2_045, 2_046, 2_047, 2_048, 2_049, 4_095,
    ] {
        check(&counter(12, Some(top)));
    }
    check(&counter(11, Some(2_047)));
    for bits in [1, 2, 8, 10, 11, 12] {
        check(&counter(bits, None));
    }
    // All sets of facts, met at the last one or never.
    for facts in [1, 2, 10, 11, 12] {
        check(&free_bits(facts, facts));
        let mut never = free_bits(facts, facts);
        never.facts.push("never".to_owned());
        never.wish |= 1 << facts;
        check(&never);
        // With one more state, or two, behind the rest.
        for more in 1..=2 {
            let mut draft = free_bits(facts, facts);
            for extra in 0..more {
                let bit = facts + extra;
                draft.facts.push(format!("more{extra}"));
                let all = (1 << bit) - 1;
                draft.act(format!("more{extra}"), all, 1 << bit, 0);
                draft.wish |= 1 << bit;
            }
            check(&draft);
            draft.facts.push("never".to_owned());
            draft.wish |= 1 << (facts + more);
            check(&draft);
        }
    }
    // A wide last layer, with the wish early or late in it.
    for apart in 30..=36 {
        for wish in [[0, 1], [1, 0], [1, 2], [31, 32], [62, 63]] {
            check(&pairs(apart, wish));
        }
    }
    for facts in [12, 13, 14, 16, 63, 64] {
        for wished in 1..=5 {
            check(&free_bits(facts, wished));
        }
    }
    tally.print();
    for rows in [2_047, 2_048, 2_049] {
        assert!(seen.contains(&(true, rows)), "a plan with {rows} states");
    }
    for rows in [2_048, 2_049] {
        assert!(seen.contains(&(false, rows)), "no plan with {rows} states");
    }
}

/// Plans that are longer than the buffer by one, just fit, or leave room.
#[test]
fn plans_at_their_bounds() {
    let mut tally = Tally::new("lengths of plans");
    for top in [
        0, 1, 2, 3, 7, 63, 127, 128, 200, 255, 256, 257, 511, 1_023, 2_046, 2_047,
    ] {
        let text = counter(11, Some(top)).text();
        tally.texts += 1;
        for places in [0, 1, 255, 256, 2_046, 2_047, 2_048, 2_049, 5_000] {
            tally.check_plan(&text, places);
        }
        for places in top.saturating_sub(2)..=top + 2 {
            tally.check_plan(&text, places);
        }
    }
    // More states than can be counted come before a plan that is too long.
    for top in [2_048, 3_000] {
        tally.texts += 1;
        for places in [0, 1, 2_048, 5_000] {
            tally.check_plan(&counter(12, Some(top)).text(), places);
        }
    }
    tally.print();
    assert!(tally.refused(15) > 0 && tally.refused(16) > 0 && tally.plans > 0);
}

/// Calls in several threads do not disturb each other.
#[test]
fn calls_at_the_same_time() {
    let counts: Vec<usize> = std::thread::scope(|scope| {
        let threads: Vec<_> = (0..4)
            .map(|seed| {
                scope.spawn(move || {
                    let mut tally = Tally::new("at the same time");
                    let mut random = Xorshift::new(100 + seed);
                    for _ in 0..300 {
                        let (facts, actions) = random_size(&mut random);
                        tally.check(&random_sheet(&mut random, facts, actions).text());
                    }
                    tally.texts
                })
            })
            .collect();
        threads
            .into_iter()
            .map(|thread| thread.join().unwrap())
            .collect()
    });
    eprintln!("in four threads at the same time: {counts:?} texts");
}

/// The program on some hundred texts of all kinds.
#[test]
fn the_program() {
    let mut tally = program::Tally::new();
    let mut random = Xorshift::new(8);
    let mut texts: Vec<Vec<u8>> = vec![Vec::new(), SHEET.to_vec(), SHORT.to_vec()];
    for top in [0, 1, 255, 256, 2_046, 2_047, 2_048] {
        texts.push(counter(12, Some(top)).text());
    }
    texts.push(counter(11, None).text());
    texts.push(counter(12, None).text());
    for apart in 32..=34 {
        texts.push(pairs(apart, [1, 2]).text());
    }
    texts.push(free_bits(11, 11).text());
    for (facts, actions) in [(64, 0), (65, 0), (64, 256), (1, 257), (65, 257), (0, 1)] {
        let mut draft = Draft::new(facts);
        draft.fill(actions);
        texts.push(draft.text());
    }
    for length in [65_534, 65_535, 65_536, 65_537, 71_000] {
        texts.push(exact_length(&mut random, length).text());
        texts.push(vec![b'a'; length]);
    }
    texts.push(vec![b'a'; 300_000]);
    for end in 0..SHORT.len() {
        texts.push(SHORT[..end].to_vec());
    }
    for _ in 0..150 {
        let (facts, actions) = random_size(&mut random);
        texts.push(random_sheet(&mut random, facts, actions).text());
    }
    for _ in 0..250 {
        let (facts, actions) = random_size(&mut random);
        let mut text = random_sheet(&mut random, facts, actions.min(40)).text();
        damage(&mut random, &mut text);
        texts.push(text);
    }
    for text in &texts {
        tally.check(text);
    }
    tally.print();
}
