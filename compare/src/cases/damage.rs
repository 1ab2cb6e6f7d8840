//! Damage done to texts.

use super::fields::{change_fields, change_move, change_variable};
use crate::generator::random::Random;

/// Bytes that take another's place; a slash and a colon stand beside the digits.
const BYTES: &[u8] = b"0123456789/:,,==\n\n\r\t -+.\0\xffmtfepjcx";

/// Numbers at the edges of ranges and forms.
#[rustfmt::skip]
const NUMBERS: [&str; 40] = [
    "0", "1", "2", "3", "4", "5", "6", "8", "9", "11", "12", "13", "15", "16", "17", "63", "64", "65", "127", "128",
    "129", "254", "255", "256", "3600", "3601", "4000", "4001", "4096", "65534", "65535", "65536", "99999",
    "100000", "4294967296", "18446744073709551617", "", "00", "01", "007",
];

/// Bytes that are appended.
const TAILS: [&[u8]; 11] =
    [b"\n", b" ", b"0", b"\0", b"\r\n", b"p=0,0,0,0\n", b"m=0\n", b"t=0\n", b"c=0\n", b"job=1\n", b"=\n\n"];

/// How a text is damaged.
#[derive(Clone, Copy)]
enum Damage {
    Fields,
    Variable,
    Move,
    Number,
    Count,
    Byte,
    Line,
    Key,
    Form,
    End,
}

/// Damages a text in one way, sometimes in several.
pub fn damage(random: &mut Random, text: &mut Vec<u8>) {
    for _ in 0..random.ranged(&[(850, (1, 1)), (150, (2, 4))]) {
        let kind = random.weighted(&[
            (260, Damage::Fields),
            (120, Damage::Variable),
            (80, Damage::Move),
            (200, Damage::Number),
            (40, Damage::Count),
            (160, Damage::Byte),
            (120, Damage::Line),
            (60, Damage::Key),
            (60, Damage::Form),
            (100, Damage::End),
        ]);
        match kind {
            Damage::Fields => by_lines(random, text, |random, lines| change_fields(random, lines)),
            Damage::Variable => by_lines(random, text, |random, lines| change_variable(random, lines)),
            Damage::Move => by_lines(random, text, |random, lines| change_move(random, lines)),
            Damage::Number => change_number(random, text, |_| true),
            Damage::Count => change_number(random, text, follows_long_key),
            Damage::Byte => change_byte(random, text),
            Damage::Line => by_lines(random, text, change_line),
            Damage::Key => by_lines(random, text, |random, lines| change_key(random, lines)),
            Damage::Form => by_lines(random, text, |random, lines| change_form(random, lines)),
            Damage::End => change_end(random, text),
        }
    }
}

/// Damages a text that has lines, as a list of its lines, each with its line feed.
fn by_lines(random: &mut Random, text: &mut Vec<u8>, change: impl Fn(&mut Random, &mut Vec<Vec<u8>>)) {
    let mut lines: Vec<Vec<u8>> = text.split_inclusive(|byte| *byte == b'\n').map(<[u8]>::to_vec).collect();
    if !lines.is_empty() {
        change(random, &mut lines);
        *text = lines.concat();
    }
}

/// A number becomes one more, one less, a number at some edge, or gets a zero in front.
fn change_number(random: &mut Random, text: &mut Vec<u8>, among: impl Fn(&[u8]) -> bool) {
    let starts =
        |index: &usize| text[*index].is_ascii_digit() && !text[..*index].last().is_some_and(u8::is_ascii_digit);
    let places: Vec<usize> = (0..text.len()).filter(starts).filter(|index| among(&text[..*index])).collect();
    if places.is_empty() {
        return;
    }
    let start = random.pick(&places);
    let length = text[start..].iter().take_while(|byte| byte.is_ascii_digit()).count();
    let old = String::from_utf8_lossy(&text[start..start + length]).into_owned();
    let number: u64 = old.parse().unwrap_or(0);
    let new = match random.below(10) {
        0..=2 => number.saturating_add(1).to_string(),
        3..=4 => number.saturating_sub(1).to_string(),
        5 => format!("0{old}"),
        _ => random.pick(&NUMBERS).to_string(),
    };
    text.splice(start..start + length, new.into_bytes());
}

/// Whether a text ends with an equals sign and a key of several letters, as before counts, init and goal.
fn follows_long_key(text: &[u8]) -> bool {
    matches!(text, [.., second, last, b'='] if second.is_ascii_lowercase() && last.is_ascii_lowercase())
}

/// A byte is changed, inserted or dropped.
fn change_byte(random: &mut Random, text: &mut Vec<u8>) {
    let place = random.below(text.len() + 1);
    let byte = random.pick(BYTES);
    match random.below(3) {
        0 if place < text.len() => text[place] = byte,
        1 if place < text.len() => drop(text.remove(place)),
        _ => text.insert(place, byte),
    }
}

/// A line is dropped, doubled or swapped with another.
fn change_line(random: &mut Random, lines: &mut Vec<Vec<u8>>) {
    let place = random.below(lines.len());
    match random.below(3) {
        0 => drop(lines.remove(place)),
        1 => lines.insert(place, lines[place].clone()),
        _ => {
            let other = if random.chance(500) { (place + 1) % lines.len() } else { random.below(lines.len()) };
            lines.swap(place, other);
        }
    }
}

/// A line's key, or every key that stands for an entry, becomes another one.
fn change_key(random: &mut Random, lines: &mut [Vec<u8>]) {
    let chosen = random.below(lines.len());
    let all = random.chance(300);
    let key = random.pick(b"mtfepcMj=");
    for (place, line) in lines.iter_mut().enumerate() {
        if place == chosen || (all && line.get(1) == Some(&b'=')) {
            line[0] = key;
        }
    }
}

/// A line gets one more number, one less, a space, or a carriage return; or all lines get one.
fn change_form(random: &mut Random, lines: &mut [Vec<u8>]) {
    let place = random.below(lines.len());
    let insertions: [&[u8]; 5] = [b",0", b",", b" ", b"\r", b"\t"];
    match random.below(8) {
        0 => lines.iter_mut().for_each(|line| insert_at_end(line, b"\r")),
        1 => insert_at_end(&mut lines[place], random.pick(&insertions)),
        2 => insert_at_end(&mut lines[place], b",0"),
        3 => drop_last_field(&mut lines[place]),
        choice => {
            let after = lines[place].iter().position(|byte| *byte == b'=').map_or(0, |index| index + choice % 2);
            lines[place].insert(after, random.pick(b" 0,=+"));
        }
    }
}

/// The text is cut, emptied, replaced by junk, or gets bytes behind it.
fn change_end(random: &mut Random, text: &mut Vec<u8>) {
    match random.below(16) {
        0 => text.clear(),
        1..=4 => text.truncate(random.below(text.len() + 1)),
        5..=6 => drop(text.pop()),
        7 => *text = (0..random.below(40)).map(|_| random.pick(BYTES)).collect(),
        8 if random.chance(100) => text.extend((0..70_000).map(|_| random.pick(BYTES))),
        9 => *text = text.repeat(2),
        _ => text.extend(random.pick(&TAILS)),
    }
}

/// Inserts bytes before a line's line feed.
fn insert_at_end(line: &mut Vec<u8>, bytes: &[u8]) {
    let end = line.len() - 1;
    line.splice(end..end, bytes.iter().copied());
}

/// Drops what stands behind a line's last comma.
fn drop_last_field(line: &mut Vec<u8>) {
    if let Some(comma) = line.iter().rposition(|byte| *byte == b',') {
        line.truncate(comma);
        line.push(b'\n');
    }
}
