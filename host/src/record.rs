// The original's answers as a list of cases that the program `replay` runs through the proved calls, without the Rust at hand.
use crate::inside::g722::G722Processor;
use crate::laws::{bytes_of, samples_of};
use crate::marks;
use crate::noise::Noise;
use crate::original::codec::{pcma::PcmaProcessor, pcmu::PcmuProcessor, CodecProcessor};
use crate::signals;

const LIVES: usize = 60;
const CALLS_A_LIFE: u64 = 6;

const HEAD: &str = "\
# What the original Rust answers, recorded by `make record`. One case a line; by_hand says how to read it.
# Both laws: every byte decoded, and every 16th sample encoded.
# G.722: for both kinds, both rates and both starts, 60 lives of 6 calls each. An encoder is fed noise, sweeps, squares, silence and
# extremes, a decoder noise, up to 12 bytes a call; the mark is told after the last call of a life.
";

fn hex(bytes: &[u8]) -> String {
    if bytes.is_empty() {
        return "-".to_string();
    }
    bytes.iter().map(|byte| format!("{byte:02X}")).collect()
}

fn law(name: char, original: &mut dyn CodecProcessor) {
    let samples: Vec<i16> = (i16::MIN..=i16::MAX).step_by(16).collect();
    for part in samples.chunks(32) {
        let given = original.encode(part);
        println!("{name}e {} {} 0 {}", hex(&bytes_of(part)), given.len(), hex(&given));
    }
    for part in (0..=255).collect::<Vec<u8>>().chunks(32) {
        let given = bytes_of(&original.decode(part));
        println!("{name}d {} {} 0 {}", hex(part), given.len(), hex(&given));
    }
}

fn life(encoder: bool, rate: u32, start: u32, noise: &mut Noise) {
    let mut original = G722Processor::from_start(rate, start);
    let (letter, kind) = if encoder { ('e', b'E') } else { ('d', b'D') };
    println!("b{letter} {rate} {start} 512 0 *");
    let mut position = 0;
    for call in 1..=CALLS_A_LIFE {
        let count = 2 * (noise.next() % 7) as usize;
        let input = if encoder { bytes_of(&signals::samples(noise, count)) } else { noise.bytes(count) };
        let given = if encoder { original.encode(&samples_of(&input)) } else { bytes_of(&original.decode(&input)) };
        position += if encoder { input.len() } else { given.len() } as u64 / 2;
        let mark = if call == CALLS_A_LIFE {
            let numbers = if encoder { original.encoder_numbers() } else { original.decoder_numbers() };
            let line = marks::line(kind, start, rate, position, &numbers);
            String::from_utf8(line).unwrap().trim_end().to_string()
        } else {
            "*".to_string()
        };
        println!("g{letter} {} {} 0 {} {mark}", hex(&input), given.len(), hex(&given));
    }
}

pub fn record() {
    let mut noise = Noise::new(0x1234_5678_9ABC_DEF1);
    print!("{HEAD}");
    law('u', &mut PcmuProcessor::new());
    law('a', &mut PcmaProcessor::new());
    for encoder in [true, false] {
        for rate in [16000, 8000] {
            for start in [0, 1] {
                (0..LIVES).for_each(|_| life(encoder, rate, start, &mut noise));
            }
        }
    }
}
