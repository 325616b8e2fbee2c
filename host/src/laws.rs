// Mu-law and A-law beside the original: every number answered, every byte written, every byte left alone.
use crate::noise::Noise;
use crate::original::codec::{pcma::PcmaProcessor, pcmu::PcmuProcessor, CodecProcessor};
use crate::proved::{self, Call};

const LONGEST: usize = 700;
const ROOMS_BEYOND: usize = 3;

pub fn samples_of(bytes: &[u8]) -> Vec<i16> {
    bytes.chunks_exact(2).map(|pair| i16::from_le_bytes([pair[0], pair[1]])).collect()
}

pub fn bytes_of(samples: &[i16]) -> Vec<u8> {
    samples.iter().flat_map(|sample| sample.to_le_bytes()).collect()
}

// One call of ours, and what it should answer and give for an input.
struct Side<'a> {
    name: &'a str,
    call: Call,
    // Bytes of input that make one item.
    item: usize,
    // What the original gives, or the number of the refusal that has no counterpart there.
    expected: &'a mut dyn FnMut(&[u8]) -> Result<Vec<u8>, u32>,
}

impl Side<'_> {
    // The number and the buffer that should be there after a call on `before`.
    fn wanted(&mut self, input: &[u8], before: &[u8]) -> (u32, Vec<u8>) {
        let mut after = before.to_vec();
        match (self.expected)(input) {
            Err(number) => (number, after),
            Ok(given) if given.len() > before.len() => (4, after),
            Ok(given) => {
                after[..given.len()].copy_from_slice(&given);
                (0, after)
            }
        }
    }

    fn agrees(&mut self, input: &[u8], before: &[u8]) -> bool {
        let wanted = self.wanted(input, before);
        let mut out = before.to_vec();
        let number = (self.call)(input, &mut out);
        (number, out) == wanted
    }

    fn check(&mut self, input: &[u8], before: &[u8]) -> Result<u64, String> {
        if self.agrees(input, before) {
            Ok(1)
        } else {
            Err(self.smallest(input, before))
        }
    }

    // The smallest input found that still differs: one item alone if there is one, else the shortest beginning.
    fn smallest(&mut self, input: &[u8], before: &[u8]) -> String {
        let alone = input.chunks(self.item).find(|item| !self.agrees(item, before)).map(<[u8]>::to_vec);
        let input = alone.unwrap_or_else(|| {
            let shortest = (0..=input.len()).find(|&n| !self.agrees(&input[..n], before));
            input[..shortest.unwrap_or(input.len())].to_vec()
        });
        let wanted = self.wanted(&input, before);
        let mut out = before.to_vec();
        let number = (self.call)(&input, &mut out);
        format!(
            "{}: a difference\n  input  {:02X?}\n  before {:02X?}\n  ours   {} {:02X?}\n  wanted {} {:02X?}",
            self.name, input, before, number, out, wanted.0, wanted.1
        )
    }

    // Every input length up to LONGEST, each with rooms from one short to some beyond.
    fn lengths(&mut self, noise: &mut Noise) -> Result<u64, String> {
        let mut calls = 0;
        for length in 0..=LONGEST {
            let input = noise.bytes(length);
            let need = (self.expected)(&input).map_or(0, |given| given.len());
            for room in need.saturating_sub(1)..=need + ROOMS_BEYOND {
                calls += self.check(&input, &noise.bytes(room))?;
            }
        }
        Ok(calls)
    }
}

fn law(name: &str, encode: Call, decode: Call, original: &mut dyn CodecProcessor) -> Result<u64, String> {
    let mut noise = Noise::new(0x9E37_79B9_7F4A_7C15);
    let every_sample: Vec<i16> = (i16::MIN..=i16::MAX).collect();
    let every_byte: Vec<u8> = (0..=255).collect();

    let mut expected = |input: &[u8]| {
        if input.len() % 2 == 0 {
            Ok(original.encode(&samples_of(input)))
        } else {
            Err(3)
        }
    };
    let label = format!("{name} encode");
    let mut side = Side { name: &label, call: encode, item: 2, expected: &mut expected };
    let whole = side.check(&bytes_of(&every_sample), &noise.bytes(every_sample.len() + 1))?;
    let parts = side.lengths(&mut noise)?;
    println!("{label}: {} samples, and {parts} calls of 0 to {LONGEST} bytes", every_sample.len());
    let encoded = whole + parts;

    let mut expected = |input: &[u8]| Ok(bytes_of(&original.decode(input)));
    let label = format!("{name} decode");
    let mut side = Side { name: &label, call: decode, item: 1, expected: &mut expected };
    let whole = side.check(&every_byte, &noise.bytes(2 * every_byte.len() + 1))?;
    let parts = side.lengths(&mut noise)?;
    println!("{label}: {} bytes, and {parts} calls of 0 to {LONGEST} bytes", every_byte.len());
    Ok(encoded + whole + parts)
}

// How many calls were compared.
pub fn compare() -> Result<u64, String> {
    let mu = law("mu-law", proved::pcmu_encode, proved::pcmu_decode, &mut PcmuProcessor::new())?;
    let a = law("A-law", proved::pcma_encode, proved::pcma_decode, &mut PcmaProcessor::new())?;
    Ok(mu + a)
}
