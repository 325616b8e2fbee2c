// Empty buffers, each passed as null and as an address that is not: both answer alike, and nothing else is touched.
use crate::marks;
use crate::proved::{self, Call, Coder};

const LAWS: [(&str, Call); 4] = [
    ("mu-law encode", proved::pcmu_encode),
    ("mu-law decode", proved::pcmu_decode),
    ("A-law encode", proved::pcma_encode),
    ("A-law decode", proved::pcma_decode),
];
const CODERS: [(&str, Coder, u8); 2] =
    [("G.722 encode", proved::g722_encode, b'E'), ("G.722 decode", proved::g722_decode, b'D')];
const BEGINNERS: [(&str, fn(u32, u32, &mut [u8]) -> u32); 2] =
    [("begin an encoder", proved::g722_begin_encoder), ("begin a decoder", proved::g722_begin_decoder)];
const BEFORE: u8 = 0xA5;

fn held(what: &str, answered: u32, wanted: u32, as_it_was: bool) -> Result<u64, String> {
    if answered == wanted && as_it_was {
        Ok(1)
    } else {
        Err(format!("empty buffers: {what}: answered {answered}, wanted {wanted}; others as they were: {as_it_was}"))
    }
}

fn law(name: &str, call: Call) -> Result<u64, String> {
    let mut out = [BEFORE; 4];
    let nothing = held(name, call(&[], &mut []), 0, true)?;
    let no_input = call(&[], &mut out);
    let no_output = held(name, call(&[0, 0], &mut []), 4, true)?;
    Ok(nothing + no_output + held(name, no_input, 0, out == [BEFORE; 4])?)
}

fn coder(name: &str, call: Coder, letter: u8) -> Result<u64, String> {
    let mark = marks::line(letter, 0, 8000, 0, &[0; marks::NUMBERS]);
    let (mut out, mut new_mark) = ([BEFORE; 4], [BEFORE; 512]);
    let mut calls = held(name, call(&[], &[], &mut [], &mut []), 6, true)?;
    calls += held(name, call(&mark, &[0, 0], &mut [], &mut new_mark), 4, new_mark == [BEFORE; 512])?;
    let number = call(&mark, &[0, 0], &mut out, &mut []);
    calls += held(name, number, 4, out == [BEFORE; 4])?;
    let number = call(&mark, &[], &mut [], &mut new_mark);
    let written = new_mark[..mark.len()] == mark[..] && new_mark[mark.len()..].iter().all(|&byte| byte == BEFORE);
    Ok(calls + held(name, number, 0, written)?)
}

pub fn try_all() -> Result<(), String> {
    let mut calls = 0;
    for null in [false, true] {
        proved::pass_empty_as_null(null);
        for (name, call) in LAWS {
            calls += law(name, call)?;
        }
        for (name, call, letter) in CODERS {
            calls += coder(name, call, letter)?;
        }
        for (name, begin) in BEGINNERS {
            calls += held(name, begin(16000, 0, &mut []), 4, true)? + held(name, begin(16000, 2, &mut []), 1, true)?;
        }
    }
    println!("empty buffers, null or not: {calls} calls");
    Ok(())
}
