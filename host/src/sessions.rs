// G.722 beside the original, every call through a mark line: numbers answered, bytes written, bytes left alone, and all 70 numbers of the state.
use crate::inside::g722::G722Processor;
use crate::laws::{bytes_of, samples_of};
use crate::marks::{self, POSITION_MOST};
use crate::noise::Noise;
use crate::original::codec::CodecProcessor;
use crate::proved;
use crate::signals;

pub const MARK_ROOM: usize = 512;
const RATES: [u32; 2] = [16000, 8000];
const STARTS: [u32; 2] = [0, 1];
const CODED_ITEMS: usize = 20_000_000;
const LONGEST_CALL: u64 = 4000;
const DAMAGED_MARKS: u64 = 150_000;
// What stands in a lent buffer before a call, to see what the call leaves alone.
const BEFORE: u8 = 0xA5;

#[derive(Clone, Copy, PartialEq)]
pub enum Kind {
    Encoder,
    Decoder,
}

impl Kind {
    fn letter(self) -> u8 {
        match self {
            Kind::Encoder => b'E',
            Kind::Decoder => b'D',
        }
    }

    fn call(self, mark: &[u8], input: &[u8], out: &mut [u8], new_mark: &mut [u8]) -> u32 {
        match self {
            Kind::Encoder => proved::g722_encode(mark, input, out, new_mark),
            Kind::Decoder => proved::g722_decode(mark, input, out, new_mark),
        }
    }
}

// How much was compared.
#[derive(Default)]
pub struct Tally {
    pub calls: u64,
    samples_encoded: u64,
    bytes_decoded: u64,
    marks: u64,
    damaged: u64,
}

// One session on both sides.
struct Life {
    kind: Kind,
    rate: u32,
    start: u32,
    position: u64,
    original: G722Processor,
    mark: Vec<u8>,
}

// What a call left: the number, the output buffer, the new mark's buffer.
type Left = (u32, Vec<u8>, Vec<u8>);

fn over(before: usize, front: &[u8]) -> Vec<u8> {
    let mut buffer = vec![BEFORE; before];
    buffer[..front.len()].copy_from_slice(front);
    buffer
}

impl Life {
    fn begin(kind: Kind, rate: u32, start: u32) -> Result<Self, String> {
        let original = G722Processor::from_start(rate, start);
        let mut life = Life { kind, rate, start, position: 0, original, mark: Vec::new() };
        life.mark = life.line(0);
        let wanted = over(MARK_ROOM, &life.mark);
        let mut buffer = vec![BEFORE; MARK_ROOM];
        let number = match kind {
            Kind::Encoder => proved::g722_begin_encoder(rate, start, &mut buffer),
            Kind::Decoder => proved::g722_begin_decoder(rate, start, &mut buffer),
        };
        if (number, &buffer) == (0, &wanted) {
            Ok(life)
        } else {
            Err(format!("begin at {rate}, start {start}: {number}, {}", shown(&buffer)))
        }
    }

    // The mark line of the original's state, `moved` samples on.
    fn line(&self, moved: u64) -> Vec<u8> {
        let numbers = match self.kind {
            Kind::Encoder => self.original.encoder_numbers(),
            Kind::Decoder => self.original.decoder_numbers(),
        };
        marks::line(self.kind.letter(), self.start, self.rate, self.position + moved, &numbers)
    }

    // The original's output as bytes, and how far the position moves.
    fn run(original: &mut G722Processor, kind: Kind, input: &[u8]) -> (Vec<u8>, u64) {
        match kind {
            Kind::Encoder => (original.encode(&samples_of(input)), input.len() as u64 / 2),
            Kind::Decoder => {
                let samples = original.decode(input);
                (bytes_of(&samples), samples.len() as u64)
            }
        }
    }

    fn ours(&self, input: &[u8], room: usize, mark_room: usize) -> Left {
        let mut out = vec![BEFORE; room];
        let mut new_mark = vec![BEFORE; mark_room];
        let number = self.kind.call(&self.mark, input, &mut out, &mut new_mark);
        (number, out, new_mark)
    }

    // One call that should be done, on both sides; the life goes on from the new mark. Hands back what was given out.
    fn go(&mut self, input: &[u8], beyond: usize, tally: &mut Tally) -> Result<Vec<u8>, String> {
        let mut moved_on = self.original.again();
        let (given, moved) = Self::run(&mut moved_on, self.kind, input);
        let room = given.len() + beyond;
        let left = self.ours(input, room, MARK_ROOM);
        let old = std::mem::replace(&mut self.original, moved_on);
        let mark = self.line(moved);
        if left != (0, over(room, &given), over(MARK_ROOM, &mark)) {
            self.original = old;
            return Err(self.smallest(input));
        }
        (self.mark, self.position) = (mark, self.position + moved);
        tally.calls += 1;
        tally.marks += 1;
        match self.kind {
            Kind::Encoder => tally.samples_encoded += moved,
            Kind::Decoder => tally.bytes_decoded += input.len() as u64,
        }
        Ok(given)
    }

    // A call that should be refused: nothing may be written.
    fn refused(&self, input: &[u8], room: usize, mark_room: usize, wanted: u32, tally: &mut Tally) -> Result<(), String> {
        tally.calls += 1;
        if self.ours(input, room, mark_room) == (wanted, vec![BEFORE; room], vec![BEFORE; mark_room]) {
            Ok(())
        } else {
            Err(format!("no refusal {wanted}, or something written: {} on {input:02X?}, room {room}, mark room {mark_room}", shown(&self.mark)))
        }
    }

    // The shortest beginning of the input that differs, from the mark before it.
    fn smallest(&self, input: &[u8]) -> String {
        let item = if self.kind == Kind::Encoder { 4 } else { 1 };
        let wanted = |input: &[u8]| {
            let mut original = self.original.again();
            let (given, moved) = Self::run(&mut original, self.kind, input);
            let after = Life { original, mark: Vec::new(), ..*self };
            (0, given, over(MARK_ROOM, &after.line(moved)))
        };
        let differs = |&length: &usize| {
            let want = wanted(&input[..length]);
            self.ours(&input[..length], want.1.len(), MARK_ROOM) != want
        };
        let length = (0..=input.len()).step_by(item).find(differs).unwrap_or(input.len());
        let (want, input) = (wanted(&input[..length]), &input[..length]);
        let left = self.ours(input, want.1.len(), MARK_ROOM);
        let tell = |(number, out, mark): &Left| format!("{number} {out:02X?}\n    {}", shown(mark));
        format!("a difference\n  from   {}\n  input  {input:02X?}\n  ours   {}\n  wanted {}", shown(&self.mark), tell(&left), tell(&want))
    }
}

fn shown(mark: &[u8]) -> String {
    String::from_utf8_lossy(mark).replace('\t', " ").trim_end().to_string()
}

fn each_start(mut work: impl FnMut(u32, u32) -> Result<(), String>) -> Result<(), String> {
    RATES.iter().try_for_each(|&rate| STARTS.iter().try_for_each(|&start| work(rate, start)))
}

// Every first byte, and every two bytes.
fn short_inputs(tally: &mut Tally) -> Result<(), String> {
    each_start(|rate, start| {
        for first in 0..=255u8 {
            Life::begin(Kind::Decoder, rate, start)?.go(&[first], 0, tally)?;
            for second in 0..=255u8 {
                Life::begin(Kind::Decoder, rate, start)?.go(&[first, second], 1, tally)?;
            }
        }
        Ok(())
    })
}

// Long lives over one kind of signal after another, cut at random, with refusals on the way. The encoders' bytes are put into `coded`,
// and the decoders take from there.
fn long_lives(kind: Kind, coded: &mut Vec<u8>, noise: &mut Noise, tally: &mut Tally) -> Result<(), String> {
    let items = CODED_ITEMS / (RATES.len() * STARTS.len());
    each_start(|rate, start| {
        let mut life = Life::begin(kind, rate, start)?;
        let mut done = 0;
        while done < items {
            let count = 2 * (noise.next() % (LONGEST_CALL / 2)) as usize;
            let input = match kind {
                Kind::Encoder => bytes_of(&signals::samples(noise, count)),
                Kind::Decoder => signals::bytes(noise, coded, count),
            };
            refusals(&life, &input, tally)?;
            let given = life.go(&input, (noise.next() % 3) as usize, tally)?;
            if kind == Kind::Encoder {
                coded.extend(given);
            }
            done += count;
        }
        println!("  rate {rate}, start {start}: {done} items, position {}", life.position);
        Ok(())
    })
}

fn refusals(life: &Life, input: &[u8], tally: &mut Tally) -> Result<(), String> {
    let (given, _) = Life::run(&mut life.original.again(), life.kind, input);
    if !given.is_empty() {
        life.refused(input, given.len() - 1, MARK_ROOM, 4, tally)?;
    }
    life.refused(input, given.len(), MARK_ROOM - 1, 4, tally)?;
    if life.kind == Kind::Encoder {
        life.refused(&[input, &[0]].concat(), given.len() + 1, MARK_ROOM, 3, tally)?;
        if life.rate != 8000 {
            life.refused(&[input, &[0, 0]].concat(), given.len() + 1, MARK_ROOM, 3, tally)?;
        }
    }
    Ok(())
}

// Marks close to the last position: up to it is done, past it is 5, and an empty input is done.
fn last_positions(noise: &mut Noise, tally: &mut Tally) -> Result<(), String> {
    for kind in [Kind::Encoder, Kind::Decoder] {
        each_start(|rate, start| {
            for left in 0..8u64 {
                let mut life = Life::begin(kind, rate, start)?;
                life.position = POSITION_MOST - left;
                life.mark = life.line(0);
                let per_item = if kind == Kind::Decoder && rate != 8000 { 2 } else { 1 };
                let items = if kind == Kind::Encoder && rate != 8000 { left / 2 * 2 } else { left / per_item } as usize;
                let width = if kind == Kind::Encoder { 2 } else { 1 };
                let more = if kind == Kind::Encoder && rate != 8000 { items + 2 } else { items + 1 };
                life.refused(&noise.bytes(more * width), 4 * more, MARK_ROOM, 5, tally)?;
                life.go(&noise.bytes(items * width), 0, tally)?;
                life.go(&[], 0, tally)?;
            }
            Ok(())
        })?;
    }
    Ok(())
}

// Marks with a byte changed, taken away or put in: restoring answers what the rules say of the text.
fn damaged_marks(noise: &mut Noise, tally: &mut Tally) -> Result<(), String> {
    for kind in [Kind::Encoder, Kind::Decoder] {
        let mut life = Life::begin(kind, 16000, 1)?;
        for turn in 0..DAMAGED_MARKS {
            if turn % 1000 == 0 {
                life.go(&noise.bytes(64), 0, tally)?;
            }
            let text = signals::damaged(noise, &life.mark);
            for own in [Kind::Encoder, Kind::Decoder] {
                let wanted = marks::judge(&text, own.letter());
                let mut new_mark = vec![BEFORE; text.len().max(MARK_ROOM)];
                let number = own.call(&text, &[], &mut [], &mut new_mark);
                let left = if wanted == 0 { over(new_mark.len(), &text) } else { vec![BEFORE; new_mark.len()] };
                if (number, &new_mark) != (wanted, &left) {
                    return Err(format!("a mark answered {number}, and the rules say {wanted}: {:?}", String::from_utf8_lossy(&text)));
                }
                tally.calls += 1;
                tally.damaged += 1;
            }
        }
    }
    Ok(())
}

// Begin's own refusals, with every room about the line's length.
fn beginnings(tally: &mut Tally) -> Result<(), String> {
    for start in [0, 1, 2, 255, 256, u32::MAX] {
        for rate in [0, 8000, 16000, u32::MAX] {
            for kind in [Kind::Encoder, Kind::Decoder] {
                let life = Life { kind, rate, start, position: 0, original: G722Processor::from_start(rate, start), mark: Vec::new() };
                let line = life.line(0);
                for room in [0, line.len() - 1, line.len(), line.len() + 1] {
                    let mut buffer = vec![BEFORE; room];
                    let number = match kind {
                        Kind::Encoder => proved::g722_begin_encoder(rate, start, &mut buffer),
                        Kind::Decoder => proved::g722_begin_decoder(rate, start, &mut buffer),
                    };
                    let wanted = if start > 1 { 1 } else if room < line.len() { 4 } else { 0 };
                    let left = over(room, if wanted == 0 { &line } else { &[] });
                    if (number, &buffer) != (wanted, &left) {
                        return Err(format!("begin at {rate}, start {start}, room {room}: {number}, wanted {wanted}"));
                    }
                    tally.calls += 1;
                }
            }
        }
    }
    Ok(())
}

pub fn compare() -> Result<Tally, String> {
    let mut tally = Tally::default();
    let mut noise = Noise::new(0x5DEE_CE66_D1CE_4E5B);
    let mut coded = Vec::new();
    println!("G.722: beginnings");
    beginnings(&mut tally)?;
    println!("G.722: every first byte and every two bytes, both rates, both starts");
    short_inputs(&mut tally)?;
    println!("G.722: encoding noise, sweeps, squares, silence and extremes, cut at random");
    long_lives(Kind::Encoder, &mut coded, &mut noise, &mut tally)?;
    println!("G.722: decoding what that gave, noise, and one byte over and over, cut at random");
    long_lives(Kind::Decoder, &mut coded, &mut noise, &mut tally)?;
    println!("G.722: positions close to {POSITION_MOST}");
    last_positions(&mut noise, &mut tally)?;
    println!("G.722: damaged marks");
    damaged_marks(&mut noise, &mut tally)?;
    println!(
        "G.722: {} calls, {} samples encoded, {} bytes decoded, {} marks read back, {} damaged marks",
        tally.calls, tally.samples_encoded, tally.bytes_decoded, tally.marks, tally.damaged
    );
    Ok(tally)
}
