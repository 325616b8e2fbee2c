// Both sides in one run: the proved calls and the original, turn about, the median of each.
use crate::inside::g722::G722Processor;
use crate::laws::bytes_of;
use crate::marks;
use crate::original::codec::{pcma::PcmaProcessor, pcmu::PcmuProcessor, CodecProcessor};
use crate::proved::{self, Call, Coder};
use crate::sessions::MARK_ROOM;
use std::fs::File;
use std::hint::black_box;
use std::path::Path;
use std::process::{Command, Stdio};
use std::time::Instant;

const TURNS: usize = 9;
const LAW_ITEMS: usize = 1 << 20;
const G722_BYTES: usize = 64 << 20;
const G722_TURNS: usize = 5;
const G722_CALL: usize = 4096;
const LISTED_BYTES: usize = 4 << 20;

fn seconds(work: &mut dyn FnMut()) -> f64 {
    let start = Instant::now();
    work();
    start.elapsed().as_secs_f64()
}

// Computed, so that nothing is optimised away, and thrown away.
fn discard<T>(result: T) {
    black_box(result);
}

fn median(mut times: Vec<f64>) -> f64 {
    times.sort_by(f64::total_cmp);
    times[times.len() / 2]
}

// The medians of both, alternating so that a slow moment of the machine meets both.
fn both(turns: usize, original: &mut dyn FnMut(), ours: &mut dyn FnMut()) -> (f64, f64) {
    let mut times = (Vec::new(), Vec::new());
    for _ in 0..turns {
        times.0.push(seconds(original));
        times.1.push(seconds(ours));
    }
    (median(times.0), median(times.1))
}

fn row(name: &str, items: usize, (original, ours): (f64, f64)) {
    let nanoseconds = |time: f64| time * 1e9 / items as f64;
    println!(
        "| {name} | {:.2} | {:.2} | {:.2} |",
        nanoseconds(original),
        nanoseconds(ours),
        ours / original
    );
}

// The length of a mark line.
fn length_of(mark: &[u8]) -> usize {
    1 + mark.iter().position(|&byte| byte == b'\n').expect("a mark line ends with a newline")
}

// All the input through calls of G722_CALL items, each from the mark that the one before it left.
fn through_marks(call: Coder, fresh: &[u8], input: &[u8], width: usize, out: &mut [u8]) {
    let mut mark = [0u8; MARK_ROOM];
    let mut new_mark = [0u8; MARK_ROOM];
    mark[..fresh.len()].copy_from_slice(fresh);
    for part in input.chunks(G722_CALL * width) {
        let number = call(&mark[..length_of(&mark)], part, out, &mut new_mark);
        assert_eq!(number, 0);
        std::mem::swap(&mut mark, &mut new_mark);
    }
    black_box(out);
}

fn g722_at(rate: u32) {
    let bytes: Vec<u8> = (0..G722_BYTES as u32).map(|i| (i.wrapping_mul(2654435761) >> 24) as u8).collect();
    let samples: Vec<i16> = (0..G722_BYTES as u32).map(|i| (i.wrapping_mul(2654435761) >> 17) as i16).collect();
    let raw = bytes_of(&samples);
    let mut out = vec![0u8; 4 * G722_CALL];
    let fresh = |kind| marks::line(kind, 0, rate, 0, &[0; marks::NUMBERS]);
    let times = both(
        G722_TURNS,
        &mut || {
            let mut original = G722Processor::from_start(rate, 0);
            bytes.chunks(G722_CALL).for_each(|part| discard(original.decode(part)));
        },
        &mut || through_marks(proved::g722_decode, &fresh(b'D'), &bytes, 1, &mut out),
    );
    row(&format!("G.722 decode at {rate}"), G722_BYTES, times);
    let times = both(
        G722_TURNS,
        &mut || {
            let mut original = G722Processor::from_start(rate, 0);
            samples.chunks(G722_CALL).for_each(|part| discard(original.encode(part)));
        },
        &mut || through_marks(proved::g722_encode, &fresh(b'E'), &raw, 2, &mut out),
    );
    row(&format!("G.722 encode at {rate}"), G722_BYTES, times);
}

pub fn g722() {
    println!("\nG.722: {G722_BYTES} items by a fixed rule (the top bits of i * 2654435761) in calls of {G722_CALL}, {G722_TURNS} turns, alternating, medians.");
    println!("Each of our calls reads a mark and writes one. Our output buffer is not cleared between calls; the original makes a new vector.\n");
    println!("| call | original, ns an item | ours, ns an item | ours / original |");
    println!("|---|---|---|---|");
    g722_at(16000);
    g722_at(8000);
}

// Runs a program over the file, its output thrown away; under the emulator that ROZIMAHA_EMULATOR names, if it names one.
fn run(program: &Path, word: Option<&str>, input: &Path) {
    let emulator = std::env::var("ROZIMAHA_EMULATOR").unwrap_or_default();
    let mut command = if emulator.is_empty() { Command::new(program) } else { Command::new(emulator) };
    if command.get_program() != program {
        command.arg(program);
    }
    let input = File::open(input).expect("the input was written above");
    let status = command.args(word).stdin(input).stdout(Stdio::null()).status().expect("the program starts");
    assert!(status.success());
}

pub fn listing() -> Result<(), String> {
    let ours = Path::new("target/bin/listing");
    if !ours.exists() {
        return Err("no target/bin/listing: run `make target/bin/listing` first".to_string());
    }
    let input = std::env::temp_dir().join("rozimaha-bench.g722");
    let bytes: Vec<u8> = (0..LISTED_BYTES as u32).map(|i| (i.wrapping_mul(2654435761) >> 24) as u8).collect();
    std::fs::write(&input, bytes).map_err(|why| format!("{}: {why}", input.display()))?;
    let host = std::env::current_exe().map_err(|why| why.to_string())?;
    let times = both(G722_TURNS, &mut || run(&host, Some("list"), &input), &mut || run(ours, None, &input));
    println!("\nThe listing of {LISTED_BYTES} bytes, as a program of its own on either side; the original's writes through a buffer of 64 KiB.\n");
    println!("| program | original, ns a byte | ours, ns a byte | ours / original |");
    println!("|---|---|---|---|");
    row("listing", LISTED_BYTES, times);
    Ok(())
}

fn law(name: &str, encode: Call, decode: Call, original: &mut dyn CodecProcessor) {
    let samples: Vec<i16> = (0..LAW_ITEMS as u32).map(|i| (i.wrapping_mul(2654435761) >> 16) as i16).collect();
    let raw = bytes_of(&samples);
    let coded = original.encode(&samples);
    let mut out = vec![0u8; raw.len()];
    for call in [160, 4096] {
        let times = both(
            TURNS,
            &mut || samples.chunks(call).for_each(|part| discard(original.encode(part))),
            &mut || raw.chunks(2 * call).for_each(|part| discard(encode(part, &mut out))),
        );
        row(&format!("{name} encode, {call} samples a call"), LAW_ITEMS, times);
        let times = both(
            TURNS,
            &mut || coded.chunks(call).for_each(|part| discard(original.decode(part))),
            &mut || coded.chunks(call).for_each(|part| discard(decode(part, &mut out))),
        );
        row(&format!("{name} decode, {call} bytes a call"), LAW_ITEMS, times);
    }
}

pub fn laws() {
    println!("{LAW_ITEMS} items a turn, {TURNS} turns, alternating, medians; our output buffer is not cleared between calls,");
    println!("the original makes a new vector for each call.\n");
    println!("| call | original, ns an item | ours, ns an item | ours / original |");
    println!("|---|---|---|---|");
    law("mu-law", proved::pcmu_encode, proved::pcmu_decode, &mut PcmuProcessor::new());
    law("A-law", proved::pcma_encode, proved::pcma_decode, &mut PcmaProcessor::new());
}
