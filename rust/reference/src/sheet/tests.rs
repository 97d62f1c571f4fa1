use super::{Refused, dual, read, read_mark};
use crate::sheet::MARKS;

const SHEET: &str = "line pods clean ground packed\n\
    now 1 1 0 0\n\
    wish - - - 1\n\
    grind pd pd a -\n\
    wash - a - -\n\
    pack - p pd a\n";

const DUAL: &str = "line pods clean ground packed\n\
    now 1 1 1 0\n\
    wish - - 1 1\n\
    grind pd pd a -\n\
    wash - a - -\n\
    pack - d pd a\n";

#[track_caller]
fn accepts(text: &str) {
    match read(text.as_bytes()) {
        Ok(sheet) => assert_eq!(sheet.to_text(), text),
        Err(refused) => panic!("{refused}: {text:?}"),
    }
}

#[track_caller]
fn refuses(text: impl AsRef<[u8]>, number: u8, place: usize) {
    let text = text.as_ref();
    let refused = Err(Refused { number, place });
    assert_eq!(read(text).map(|_| ()), refused);
    assert_eq!(dual(text).map(|_| ()), refused);
}

/// A sheet of so many facts and actions, all marks `-`.
fn sized(facts: usize, actions: usize) -> String {
    let names: String = (0..facts).map(|fact| format!(" f{fact}")).collect();
    let mut text = format!(
        "line{names}\nnow{}\nwish{}\n",
        " 0".repeat(facts),
        " -".repeat(facts)
    );
    for action in 0..actions {
        text.push_str(&format!("a{action}{}\n", " -".repeat(facts)));
    }
    text
}

/// A sheet of exactly so many bytes, with 64 facts and 256 actions.
fn of_length(length: usize) -> String {
    let mut text = sized(64, 256);
    let mut missing = length - text.len();
    let head = text.match_indices('\n').nth(2).unwrap().0;
    let (front, marks) = text.split_at(head);
    let marks: String = marks
        .split_inclusive(' ')
        .map(|word| {
            let more = missing.min(2);
            let mark = ["-", "pa", "pad"][more];
            let changed = word.replacen('-', mark, 1);
            missing -= changed.len() - word.len();
            changed
        })
        .collect();
    text = format!("{front}{marks}");
    assert_eq!(text.len(), length);
    text
}

#[test]
fn reads_a_sheet() {
    let sheet = read(SHEET.as_bytes()).unwrap();
    assert_eq!(sheet.facts(), ["pods", "clean", "ground", "packed"]);
    assert_eq!(sheet.now(), 0b0011);
    assert_eq!(sheet.wish(), 0b1000);
    let actions: Vec<_> = sheet
        .actions()
        .iter()
        .map(|action| (action.name, action.needs, action.adds, action.deletes))
        .collect();
    assert_eq!(
        actions,
        [
            ("grind", 0b0011, 0b0100, 0b0011),
            ("wash", 0, 0b0010, 0),
            ("pack", 0b0110, 0b1000, 0b0100),
        ]
    );
    assert_eq!(sheet.action_number("pack"), Some(2));
    assert_eq!(sheet.action_number("pods"), None);
    accepts(SHEET);
}

#[test]
fn writes_the_dual() {
    assert_eq!(dual(SHEET.as_bytes()).unwrap(), DUAL.as_bytes());
    assert_eq!(dual(DUAL.as_bytes()).unwrap(), SHEET.as_bytes());

    let text = "line a b c d\nnow 0 0 1 1\nwish - 1 - 1\n\
        x - p a d\ny pa pd ad pad\n";
    let other = "line a b c d\nnow 1 0 1 0\nwish 1 1 - -\n\
        x - d a p\ny ad pd pa pad\n";
    assert_eq!(dual(text.as_bytes()).unwrap(), other.as_bytes());
}

#[test]
fn the_dual_uses_no_bits_beyond_the_facts() {
    for facts in [1, 2, 63, 64] {
        let text = sized(facts, 1);
        let sheet = read(text.as_bytes()).unwrap().dual();
        let all = u64::MAX >> (64 - facts);
        assert_eq!((sheet.now(), sheet.wish()), (all, all));
        assert_eq!(sheet.dual().to_text(), text);
    }
}

#[test]
fn marks_are_in_order_and_once() {
    for (index, mark) in MARKS.iter().enumerate() {
        assert_eq!(read_mark(mark.as_bytes()), Some(index as u64));
    }
    for word in [
        "ap", "da", "dp", "pda", "apd", "adp", "dpa", "dap", "pp", "aa", "dd", "ppa", "padd", "-p",
        "p-", "--", "0", "1", "x", "b", "q", "o",
    ] {
        assert_eq!(read_mark(word.as_bytes()), None, "{word}");
    }
}

#[test]
fn refusal_1() {
    refuses("", 1, 0);
    accepts(&of_length(65_535));
    refuses(of_length(65_536), 1, 0);
    refuses([b' '; 65_536], 1, 0);
    refuses([b' '; 65_535], 2, 0);
    refuses([b'a'; 65_535], 2, 65_535);
    refuses(vec![0; 1 << 20], 1, 0);
}

#[test]
fn refusal_2() {
    for (text, place) in [
        ("\n", 0),
        (" ", 0),
        ("a", 1),
        ("a ", 2),
        ("a \n", 2),
        ("a  b\n", 2),
        ("a\n\n", 2),
        ("a\n b\n", 2),
        ("a\nb", 3),
        ("a\nb ", 4),
        ("a\r\n", 1),
        ("a\tb\n", 1),
        ("A\n", 0),
        ("a_b\n", 1),
        ("a\0\n", 1),
        ("é\n", 0),
    ] {
        refuses(text, 2, place);
    }
    // The bytes next to those of a word.
    for byte in *b"/:`{,.@[\x0b\x09\x1f\x21\x7f\x80\xff\x00" {
        refuses([b'a', byte, b'\n'], 2, 1);
        refuses([byte, b'a', b'\n'], 2, 0);
    }
    // The last line end, the last byte, and a byte after.
    let end = SHEET.len();
    refuses(&SHEET[..end - 1], 2, end - 1);
    refuses(format!("{} \n", &SHEET[..end - 1]), 2, end);
    refuses(format!("{SHEET}\n"), 2, end);
    refuses(format!("{SHEET}a"), 2, end + 1);
    refuses(format!(" {SHEET}"), 2, 0);
    // Before every later refusal, wherever it is.
    refuses("nine\nX", 2, 5);
    refuses("line a a a\nnow 1 1\nwish 5\n ", 2, 26);
}

#[test]
fn refusal_3() {
    refuses("line\n", 3, 5);
    refuses("line a\n", 3, 7);
    refuses("line a\nnow 0\n", 3, 13);
    accepts("line a\nnow 0\nwish -\n");
    refuses("line\nnow\nwish\n", 3, 14);
    refuses("nine\nnow 0\nwish -\n", 3, 18);
    refuses("-\n-\n-\n", 3, 6);

    accepts(&sized(64, 0));
    let text = sized(65, 0);
    let place = text.find("f64").unwrap();
    refuses(&text, 3, place);
    let text = sized(80, 3);
    refuses(&text, 3, text.find("f64").unwrap());
    // Fewer than three lines come before the facts.
    let first = text.lines().next().unwrap().len() + 1;
    refuses(&text[..first], 3, first);

    accepts(&sized(1, 256));
    let text = sized(1, 257);
    refuses(&text, 3, text.find("a256").unwrap());
    let text = sized(1, 300);
    refuses(&text, 3, text.find("a256").unwrap());
    // The facts come before the actions.
    let text = sized(65, 257);
    refuses(&text, 3, text.find("f64").unwrap());
    accepts(&sized(64, 256));
    // Before the numbers of words and the words.
    let text = sized(1, 257).replacen("now 0", "when 5 5", 1);
    refuses(&text, 3, text.find("a256").unwrap());
}

#[test]
fn refusal_4() {
    refuses("line a\nnow\nwish -\n", 4, 7);
    refuses("line a\nnow 0 0\nwish -\n", 4, 7);
    refuses("line a\nnow 0\nwish\n", 4, 13);
    refuses("line a\nnow 0\nwish - -\n", 4, 13);
    refuses("line a\nnow 0\nwish -\nx\n", 4, 20);
    refuses("line a\nnow 0\nwish -\nx - -\n", 4, 20);
    refuses("line a\nnow 0\nwish -\nx -\ny\n", 4, 24);
    // The first line has the number, so it is never the one at fault.
    refuses("line a b\nnow 0\nwish -\n", 4, 9);
    // The last of 256 actions, at the most facts.
    let text = format!("{} -\n", sized(64, 256).trim_end());
    refuses(&text, 4, text.find("a255").unwrap());
    // Before the words, even those of earlier lines.
    refuses("nine 0\nnot 5\nwish -\nx\n", 4, 20);
}

#[test]
fn refusal_5() {
    let lines = ["line a b", "now 0 1", "wish - 1", "x p a", "y - pad"];
    let text = |line: usize, word: usize, new: &str| {
        let mut lines: Vec<Vec<&str>> = lines.iter().map(|l| l.split(' ').collect()).collect();
        lines[line][word] = new;
        let lines: Vec<String> = lines.iter().map(|words| words.join(" ")).collect();
        let place = lines[..line].iter().map(|l| l.len() + 1).sum::<usize>()
            + lines[line]
                .split(' ')
                .take(word)
                .map(|w| w.len() + 1)
                .sum::<usize>();
        (lines.join("\n") + "\n", place)
    };
    let wrong_heads = ["a", "lin", "lines", "no", "now1", "wishes", "-", "0"];
    let wrong_names = ["-", "0", "1", "1a", "a-b", "a-", "-a", "abcdefghijklmnopq"];
    for line in 0..5 {
        for word in 0..3 {
            let wrong: &[&str] = match (line, word) {
                (0..3, 0) => &wrong_heads,
                (0, _) | (_, 0) => &wrong_names,
                (1, _) => &["-", "2", "00", "01", "10", "11", "p", "a1"],
                (2, _) => &["0", "2", "--", "-1", "1-", "11", "p"],
                _ => &["0", "1", "--", "pp", "ap", "da", "dp", "padd", "paad", "x"],
            };
            for new in wrong {
                let (text, place) = text(line, word, new);
                refuses(text, 5, place);
            }
        }
    }
    // Each line has its own first word.
    for (line, new) in [(0, "now"), (0, "wish"), (1, "line"), (2, "now")] {
        let (text, place) = text(line, 0, new);
        refuses(text, 5, place);
    }
    // The first of two, and before a name that comes again.
    refuses("line a a\nnow 0 1\nwish 0 0\n", 5, 22);
    // Names of one letter and of 16, the first and last letters and digits.
    for name in [
        "z",
        "a0",
        "z9",
        "line",
        "now",
        "wish",
        "pad",
        "abcdefghijklmno9",
    ] {
        for (line, word) in [(0, 1), (0, 2), (3, 0), (4, 0)] {
            accepts(&text(line, word, name).0);
        }
    }
}

#[test]
fn refusal_6() {
    refuses("line a a\nnow 0 0\nwish - -\n", 6, 7);
    refuses("line a b a b\nnow 0 0 0 0\nwish - - - -\n", 6, 9);
    refuses("line a b b a\nnow 0 0 0 0\nwish - - - -\n", 6, 9);
    refuses("line a\nnow 0\nwish -\nx -\nx -\n", 6, 24);
    refuses("line a\nnow 0\nwish -\nx -\ny -\nx -\nx -\n", 6, 28);
    // The facts first.
    refuses("line a a\nnow 0 0\nwish - -\nx - -\nx - -\n", 6, 7);
    // A fact and an action may have the same name; a beginning is not the same.
    accepts("line a b\nnow 0 0\nwish - -\nb - -\na - -\n");
    accepts("line a aa aaa\nnow 0 0 0\nwish - - -\nab - - -\na - - -\n");
    // The last facts and actions, and the names that differ in the last letter.
    let text = sized(64, 256).replacen("f63", "f0", 1);
    refuses(&text, 6, text.find("f62 f0").unwrap() + 4);
    let text = sized(64, 256).replacen("a255", "a254", 1);
    refuses(&text, 6, text.rfind("a254").unwrap());
    let text = sized(64, 256).replacen("a255", "a0", 1);
    refuses(&text, 6, text.rfind("a0").unwrap());
    accepts("line aaaaaaaaaaaaaaaa aaaaaaaaaaaaaaab\nnow 0 0\nwish - -\n");
}
