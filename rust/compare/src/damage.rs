use crate::{Xorshift, random_name};

/// Bytes at the edges of what may stand in a text, inside and outside.
pub const BYTES: &[u8] = b" \n-019apdqzlinewsh`{/:AZ_\t\r\0\x0b\x1f!,.@[~\x7f\x80\xff\xa0\xe1";

/// Words that belong in some column, and words that belong in none.
const WORDS: &[&str] = &[
    "",
    "-",
    "--",
    "0",
    "1",
    "01",
    "11",
    "2",
    "p",
    "a",
    "d",
    "pa",
    "pd",
    "ad",
    "pad",
    "ap",
    "da",
    "dp",
    "pda",
    "pp",
    "padd",
    "line",
    "now",
    "wish",
    "lines",
    "no",
    "x",
    "x1",
    "1x",
    "x-",
    "-x",
    "xy",
    "abcdefghijklmnop",
    "abcdefghijklmnopq",
    "abcdefghijklmno-",
    "a b",
    "a\nb",
];

/// Damages a text at one place, which may leave it a sheet all the same.
pub fn damage(random: &mut Xorshift, text: &mut Vec<u8>) {
    match random.below(6) {
        0 => damage_byte(random, text),
        1 => damage_end(random, text),
        2 => damage_line(random, text),
        _ => damage_word(random, text),
    }
}

fn damage_byte(random: &mut Xorshift, text: &mut Vec<u8>) {
    let byte = if random.chance(80) {
        random.pick(BYTES)
    } else {
        random.next() as u8
    };
    match random.below(4) {
        0 if !text.is_empty() => {
            text.remove(random.below(text.len()));
        }
        1 => text.insert(random.below(text.len() + 1), byte),
        2 if text.len() > 1 => {
            let place = random.below(text.len() - 1);
            text.swap(place, place + 1);
        }
        _ => {
            let place = random.below(text.len());
            if let Some(old) = text.get_mut(place) {
                *old = byte;
            }
        }
    }
}

fn damage_end(random: &mut Xorshift, text: &mut Vec<u8>) {
    match random.below(6) {
        0 => {
            text.pop();
        }
        1 => text.truncate(random.below(text.len() + 1)),
        2 => text.push(random.pick(BYTES)),
        3 => text.push(b'\n'),
        4 => {
            text.pop();
            text.push(b' ');
        }
        _ => {
            let from = random.below(text.len() + 1);
            text.drain(..from);
        }
    }
}

fn damage_line(random: &mut Xorshift, text: &mut Vec<u8>) {
    let mut lines: Vec<Vec<u8>> = text
        .split_inclusive(|&byte| byte == b'\n')
        .map(<[u8]>::to_vec)
        .collect();
    if lines.is_empty() {
        return;
    }
    let line = random.below(lines.len());
    let other = random.below(lines.len());
    match random.below(8) {
        0 => {
            lines.remove(line);
        }
        1 => lines.insert(other, lines[line].clone()),
        2 => lines.swap(line, other),
        3 => lines.insert(line, b"\n".to_vec()),
        4 => {
            let end = lines[line].len() - 1;
            lines[line].insert(end, random.pick(b" \r"));
        }
        5 => lines[line].insert(0, b' '),
        6 => {
            lines[line].pop();
        }
        _ => lines.truncate(other),
    }
    *text = lines.concat();
}

fn damage_word(random: &mut Xorshift, text: &mut Vec<u8>) {
    // The places of the words, whatever their bytes.
    let mut words = Vec::new();
    let mut start = 0;
    for word in text.split(|&byte| byte == b' ' || byte == b'\n') {
        if !word.is_empty() {
            words.push((start, start + word.len()));
        }
        start += word.len() + 1;
    }
    if words.is_empty() {
        return;
    }
    let (start, end) = random.pick(&words);
    let (other, other_end) = random.pick(&words);
    let word = text[start..end].to_vec();
    let other_word = text[other..other_end].to_vec();
    match random.below(7) {
        // Swaps two words.
        0 => {
            let (first, second) = if start < other {
                ((start, end, other_word), (other, other_end, word))
            } else {
                ((other, other_end, word), (start, end, other_word))
            };
            // The later one first, so that the places still hold.
            text.splice(second.0..second.1, second.2);
            if first.0 != second.0 {
                text.splice(first.0..first.1, first.2);
            }
        }
        // Takes away a word, with a byte at its side or without.
        1 => {
            let end = (end + random.below(2)).min(text.len());
            text.drain(start..end);
        }
        // Puts in a word.
        2 => {
            let more = [other_word, b" ".to_vec()].concat();
            text.splice(start..start, more);
        }
        // Writes one word over another.
        3 => {
            text.splice(start..end, other_word);
        }
        // Writes a name of up to 17 letters.
        4 => {
            let length = random.pick(&[1, 2, 15, 16, 17]);
            let name = random_name(random, length);
            text.splice(start..end, name.into_bytes());
        }
        _ => {
            let new = random.pick(WORDS);
            text.splice(start..end, new.bytes());
        }
    }
}
