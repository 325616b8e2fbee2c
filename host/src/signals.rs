// Inputs of many kinds, by fixed rules from a noise source.
use crate::noise::Noise;

// A run of one kind of signal: noise at some loudness, a sweep, a square wave, silence, or the two extremes by turns.
pub fn samples(noise: &mut Noise, count: usize) -> Vec<i16> {
    let kind = noise.next() % 6;
    let loud = 1 << (noise.next() % 16);
    let period = 1 + (noise.next() % 200) as usize;
    (0..count)
        .map(|at| match kind {
            0 | 1 => ((noise.next() >> 40) as i64 % (2 * loud) - loud) as i16,
            2 => sweep(at, count, (loud - 1) as f64),
            3 => square(at, period, (loud - 1) as i16),
            4 => 0,
            _ => square(at, period, i16::MAX).saturating_sub((at % 2) as i16),
        })
        .collect()
}

// A run of bytes: noise, one byte over and over, or a part of what an encoder gave.
pub fn bytes(noise: &mut Noise, coded: &[u8], count: usize) -> Vec<u8> {
    match noise.next() % 4 {
        0 => noise.bytes(count),
        1 => vec![(noise.next() >> 32) as u8; count],
        _ => {
            let at = (noise.next() % (coded.len() - count) as u64) as usize;
            coded[at..at + count].to_vec()
        }
    }
}

// From low to half the sampling rate over the run.
fn sweep(at: usize, count: usize, loud: f64) -> i16 {
    let turns = (at * at) as f64 / (4.0 * count as f64);
    (loud * (std::f64::consts::TAU * turns).sin()) as i16
}

fn square(at: usize, period: usize, loud: i16) -> i16 {
    if at / period % 2 == 0 {
        loud
    } else {
        -1 - loud
    }
}

const LIKELY: &[u8] = b"0123456789-\t\n\r +EDZS";

// The line with one to three changes: a byte changed, taken away or put in, a field doubled, a digit put before a number, the end cut
// off or a newline added.
pub fn damaged(noise: &mut Noise, line: &[u8]) -> Vec<u8> {
    let mut text = line.to_vec();
    for _ in 0..1 + noise.next() % 3 {
        let at = (noise.next() % text.len().max(1) as u64) as usize;
        let byte = LIKELY[(noise.next() % LIKELY.len() as u64) as usize];
        match noise.next() % 8 {
            0 | 1 if at < text.len() => text[at] = byte,
            2 if at < text.len() => drop(text.remove(at)),
            3 => text.truncate(at),
            4 => text.insert(at, (noise.next() >> 20) as u8),
            5 => text.extend_from_slice(b"\n"),
            6 => double_field(&mut text, at),
            _ => put_digit(&mut text, at, byte),
        }
    }
    text
}

// Doubles the field that follows the first tab from `at` on.
fn double_field(text: &mut Vec<u8>, at: usize) {
    if let Some(tab) = text[at..].iter().position(|&byte| byte == b'\t').map(|ahead| at + ahead) {
        let field: Vec<u8> = text[tab..].iter().enumerate().take_while(|&(i, &byte)| i == 0 || byte > b'\n').map(|(_, &byte)| byte).collect();
        text.splice(tab..tab, field);
    }
}

// Puts a digit, or another byte, at the front of the field that follows the first tab from `at` on.
fn put_digit(text: &mut Vec<u8>, at: usize, byte: u8) {
    if let Some(ahead) = text[at..].iter().position(|&byte| byte == b'\t') {
        text.insert(at + ahead + 1, byte);
    }
}
