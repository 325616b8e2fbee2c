// Mark lines as docs/RULES.md has them, written and judged here by code of their own, so that the proved ones have a second opinion.
#![cfg_attr(not(original), allow(dead_code))]

pub const NUMBERS: usize = 70;
pub const POSITION_MOST: u64 = 4294967295;

// The line of a session whose x and bands are `numbers`.
pub fn line(kind: u8, start: u32, rate: u32, position: u64, numbers: &[i32]) -> Vec<u8> {
    let letter = if start == 1 { 'S' } else { 'Z' };
    let mut text = format!("{}\t{letter}\t{rate}\t{position}", kind as char);
    for number in numbers {
        text.push_str(&format!("\t{number}"));
    }
    text.push('\n');
    text.into_bytes()
}

// A number's text, if it is the one text of a number of at most ten digits.
fn number(field: &str) -> Option<i64> {
    let digits = field.strip_prefix('-').unwrap_or(field);
    let plain = !digits.is_empty() && digits.len() <= 10 && digits.bytes().all(|b| b.is_ascii_digit());
    let value: i64 = if plain { field.parse().ok()? } else { return None };
    (value.to_string() == field).then_some(value)
}

fn fields(line: &[u8]) -> Option<(u8, Vec<i64>)> {
    let text = std::str::from_utf8(line).ok()?.strip_suffix('\n')?;
    let fields: Vec<&str> = text.split('\t').collect();
    let letters = matches!(fields[0], "E" | "D") && matches!(fields.get(1), Some(&"Z") | Some(&"S"));
    if !letters || fields.len() != NUMBERS + 4 || fields[2].starts_with('-') || fields[3].starts_with('-') {
        return None;
    }
    let numbers: Option<Vec<i64>> = fields[2..].iter().map(|field| number(field)).collect();
    Some((fields[0].as_bytes()[0], numbers?))
}

fn band_in_bounds(band: &[i64], nb_most: i64) -> bool {
    let (a1, a2, nb, det) = (band[5], band[6], band[21], band[22]);
    a2.abs() <= 12288 && a1.abs() <= 15360 - a2 && (0..=nb_most).contains(&nb) && (0..=16384).contains(&det)
}

fn in_bounds(numbers: &[i64]) -> bool {
    let (head, state) = numbers.split_at(2);
    head.iter().all(|&n| n as u64 <= POSITION_MOST)
        && state.iter().all(|n| (-32768..=32767).contains(n))
        && band_in_bounds(&state[24..47], 18432)
        && band_in_bounds(&state[47..], 22528)
}

// What restoring a line into a fresh session of kind `own` answers.
pub fn judge(line: &[u8], own: u8) -> u32 {
    match fields(line) {
        None => 6,
        Some((kind, _)) if kind != own => 7,
        Some((_, numbers)) if !in_bounds(&numbers) => 8,
        Some(_) => 0,
    }
}
