// The proved calls, as include/rozimaha.h declares them, behind safe functions.
#![cfg_attr(not(original), allow(dead_code))]
use std::ptr::{null, null_mut};
use std::sync::atomic::{AtomicBool, Ordering};

extern "C" {
    fn rozimaha_pcmu_encode(input: *const u8, input_len: usize, out: *mut u8, out_len: usize) -> u32;
    fn rozimaha_pcmu_decode(input: *const u8, input_len: usize, out: *mut u8, out_len: usize) -> u32;
    fn rozimaha_pcma_encode(input: *const u8, input_len: usize, out: *mut u8, out_len: usize) -> u32;
    fn rozimaha_pcma_decode(input: *const u8, input_len: usize, out: *mut u8, out_len: usize) -> u32;
    fn rozimaha_g722_encode(
        mark: *const u8, mark_len: usize, input: *const u8, input_len: usize,
        out: *mut u8, out_len: usize, new_mark: *mut u8, new_mark_len: usize,
    ) -> u32;
    fn rozimaha_g722_decode(
        mark: *const u8, mark_len: usize, input: *const u8, input_len: usize,
        out: *mut u8, out_len: usize, new_mark: *mut u8, new_mark_len: usize,
    ) -> u32;
    fn rozimaha_g722_begin_encoder(rate: u32, start: u32, mark: *mut u8, mark_len: usize) -> u32;
    fn rozimaha_g722_begin_decoder(rate: u32, start: u32, mark: *mut u8, mark_len: usize) -> u32;
}

// Callers of C and C++ pass null for an empty buffer, callers of Rust an address that is not null: the calls take both.
static EMPTY_IS_NULL: AtomicBool = AtomicBool::new(true);

pub fn pass_empty_as_null(null: bool) {
    EMPTY_IS_NULL.store(null, Ordering::Relaxed);
}

fn is_null(length: usize) -> bool {
    length == 0 && EMPTY_IS_NULL.load(Ordering::Relaxed)
}

fn read(lent: &[u8]) -> *const u8 {
    if is_null(lent.len()) { null() } else { lent.as_ptr() }
}

fn written(lent: &mut [u8]) -> *mut u8 {
    if is_null(lent.len()) { null_mut() } else { lent.as_mut_ptr() }
}

// A law's call: input bytes, output bytes, the answer's number.
pub type Call = fn(&[u8], &mut [u8]) -> u32;

macro_rules! call {
    ($name:ident, $exported:ident) => {
        pub fn $name(input: &[u8], out: &mut [u8]) -> u32 {
            // Sound: both slices are valid for their lengths, and `&mut` overlaps nothing.
            unsafe { $exported(read(input), input.len(), written(out), out.len()) }
        }
    };
}

call!(pcmu_encode, rozimaha_pcmu_encode);
call!(pcmu_decode, rozimaha_pcmu_decode);
call!(pcma_encode, rozimaha_pcma_encode);
call!(pcma_decode, rozimaha_pcma_decode);

// A G.722 call: a mark line, input bytes, output bytes, the new mark's buffer, the answer's number.
pub type Coder = fn(&[u8], &[u8], &mut [u8], &mut [u8]) -> u32;

macro_rules! coder {
    ($name:ident, $exported:ident) => {
        pub fn $name(mark: &[u8], input: &[u8], out: &mut [u8], new_mark: &mut [u8]) -> u32 {
            // Sound, as above.
            unsafe {
                $exported(
                    read(mark), mark.len(), read(input), input.len(),
                    written(out), out.len(), written(new_mark), new_mark.len(),
                )
            }
        }
    };
}

coder!(g722_encode, rozimaha_g722_encode);
coder!(g722_decode, rozimaha_g722_decode);

pub fn g722_begin_encoder(rate: u32, start: u32, mark: &mut [u8]) -> u32 {
    // Sound, as above.
    unsafe { rozimaha_g722_begin_encoder(rate, start, written(mark), mark.len()) }
}

pub fn g722_begin_decoder(rate: u32, start: u32, mark: &mut [u8]) -> u32 {
    // Sound, as above.
    unsafe { rozimaha_g722_begin_decoder(rate, start, written(mark), mark.len()) }
}
