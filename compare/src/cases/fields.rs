//! Damage by numbers at the edges of their ranges, in lines that keep their form.

use crate::generator::random::Random;

/// Edges of the numbers behind a key, whatever the job.
fn own_edges(key: &[u8]) -> &'static [usize] {
    match key {
        b"facts" => &[0, 1, 11, 12, 13],
        b"init" => &[1, 2, 3, 4, 7, 8, 15, 16, 31, 32, 63, 64, 127, 128, 255, 256, 1023, 1024, 4095, 4096],
        b"formulas" => &[0, 1, 254, 255, 256],
        b"moves" => &[0, 63, 64, 65],
        b"objects" => &[0, 1, 2, 15, 16, 17],
        b"program" => &[0, 1, 127, 128, 129],
        b"costs" => &[0, 15, 16, 17],
        b"c" => &[0, 1, 3600, 3601, 65534, 65535, 65536],
        b"plan" => &[0, 3999, 4000, 4001],
        b"m" => &[15, 16, 17],
        b"f" => &[0, 1, 2, 3, 4, 5, 6, 7, 8, 9],
        b"p" => &[0, 1, 2, 3, 4, 5, 6, 7, 8, 9, 10, 11, 12],
        _ => &[0, 1, 2],
    }
}

/// Puts numbers at the edges of ranges into one or two fields of a line; each key is as likely as another.
pub fn change_fields(random: &mut Random, lines: &mut [Vec<u8>]) {
    let mut keys: Vec<Vec<u8>> = lines.iter().map(|line| key_of(line).to_vec()).collect();
    let counts = [b"f", b"m", b"p"].map(|key| keys.iter().filter(|own| *own == key).count());
    keys.sort();
    keys.dedup();
    let key = &keys[random.below(keys.len())];
    let places: Vec<usize> = (0..lines.len()).filter(|place| key_of(&lines[*place]) == key).collect();
    let place = random.pick(&places);
    let mut edges = own_edges(key).to_vec();
    edges.extend([counts[random.below(3)], counts[random.below(3)].saturating_sub(1)]);
    for _ in 0..random.pick(&[1, 1, 2]) {
        replace_field(random, &mut lines[place], &edges);
    }
}

/// Gives a move or a test of an object a base at its limit or one past it, or a pick that is one further out or as far
/// out as a number can say; where there is none, any fields are changed.
pub fn change_variable(random: &mut Random, lines: &mut [Vec<u8>]) {
    let [moves, formulas, objects] = ["moves", "formulas", "objects"].map(|key| number_of(lines, key));
    let variables: Vec<(usize, [usize; 4])> =
        lines.iter().enumerate().filter_map(|(place, line)| Some((place, variable_of(line)?))).collect();
    if variables.is_empty() {
        return change_fields(random, lines);
    }
    let (place, [kind, base, pick, _]) = random.pick(&variables);
    let count = if kind == 10 { moves } else { formulas };
    let last = count.saturating_sub(objects);
    let changed = [[last, pick], [last + 1, pick], [last + 1, pick], [base, pick + 1], [base, 65535], [base, 65535]];
    let [base, pick] = random.pick(&changed);
    lines[place] = format!("p={kind},{base},{pick},0\n").into_bytes();
}

/// Gives a move a second class or a condition at its limit or one past it, perhaps beside 17 effects, or one number too
/// few or too many; where there is no move, any fields are changed.
pub fn change_move(random: &mut Random, lines: &mut [Vec<u8>]) {
    let formulas = number_of(lines, "formulas");
    let moves: Vec<(usize, [usize; 5])> =
        lines.iter().enumerate().filter_map(|(place, line)| Some((place, move_of(line)?.try_into().ok()?))).collect();
    if moves.is_empty() {
        return change_fields(random, lines);
    }
    let (place, [pre, class, effects, condition, second]) = random.pick(&moves);
    let condition = random.pick(&[condition, condition, formulas.saturating_sub(1), formulas]);
    let second = random.pick(&[second, 15, 16]);
    let effects = random.pick(&[effects, effects, effects, 17]);
    let mut numbers = vec![pre, class, effects, condition, second, 0];
    numbers.truncate(random.pick(&[3, 4, 5, 5, 5, 5, 5, 6]));
    let numbers: Vec<String> = numbers.iter().map(usize::to_string).collect();
    lines[place] = format!("m={}\n", numbers.join(",")).into_bytes();
}

/// The number on the line of a key that one line has; 0 where there is none.
pub fn number_of<T: AsRef<[u8]>>(lines: &[T], key: &str) -> usize {
    let line = lines.iter().find(|line| key_of(line.as_ref()) == key.as_bytes());
    line.and_then(|line| numbers(line.as_ref())?.first().copied()).unwrap_or(0)
}

/// The numbers of a program row that is a move or a test of an object.
pub fn variable_of(line: &[u8]) -> Option<[usize; 4]> {
    let row: [usize; 4] = numbers(line)?.try_into().ok()?;
    (key_of(line) == b"p" && matches!(row[0], 10 | 11)).then_some(row)
}

/// The numbers of a line with the key of a move.
pub fn move_of(line: &[u8]) -> Option<Vec<usize>> {
    numbers(line).filter(|_| key_of(line) == b"m")
}

/// The numbers behind a line's equals sign.
fn numbers(line: &[u8]) -> Option<Vec<usize>> {
    let (_, value) = std::str::from_utf8(line).ok()?.trim_end().split_once('=')?;
    value.split(',').map(|number| number.parse().ok()).collect()
}

/// The bytes before a line's equals sign.
fn key_of(line: &[u8]) -> &[u8] {
    line.split(|byte| *byte == b'=').next().unwrap_or_default()
}

/// Puts one of the numbers into one of the line's fields.
fn replace_field(random: &mut Random, line: &mut Vec<u8>, numbers: &[usize]) {
    let text = String::from_utf8_lossy(line).into_owned();
    let Some((key, value)) = text.trim_end().split_once('=') else {
        return;
    };
    let mut fields: Vec<String> = value.split(',').map(str::to_string).collect();
    let place = random.below(fields.len());
    fields[place] = random.pick(numbers).to_string();
    *line = format!("{key}={}\n", fields.join(",")).into_bytes();
}
