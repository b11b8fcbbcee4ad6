//! Both programs as one WebAssembly module without imports: a function from words and input to a status and output.
//!
//! The host asks for `room` for the words, each ended by a zero byte, and for the input; fills both; and calls `call`, which frees them. Then
//! `output` and `output_length` are the place of what was written, until the next call. foldcairn.js does so.
#![cfg_attr(target_arch = "wasm32", no_std)]
#![cfg(target_arch = "wasm32")]
extern crate alloc;

mod heap;

use alloc::alloc::{GlobalAlloc, Layout};
use alloc::vec::Vec;
use core::cell::UnsafeCell;
use heap::Heap;
use lwb_base::{Failed, Sink, Source};
use rattle_std::alloc::{AllocError, Global};
use rattle_std::prelude::rattle::{String as Word, Vec as Words};

#[global_allocator]
static HEAP: Heap = Heap::new();

// The commands of the second program, and those that are its own with a number after them.
const PLANNERS: [&str; 5] = ["bounds", "draw", "outcome", "fates", "sample"];
const SEEDED: [&str; 2] = ["run", "log"];
// As the programs have them.
const OUT_OF_MEMORY: u32 = 5;
const NOT_UTF8: u32 = 6;

#[panic_handler]
fn stop(_: &core::panic::PanicInfo) -> ! {
    core::arch::wasm32::unreachable()
}

struct Input<'a>(&'a [u8]);

impl Source for Input<'_> {
    fn take(&mut self, room: &mut [u8]) -> Result<usize, Failed> {
        let (front, rest) = self.0.split_at(self.0.len().min(room.len()));
        room[..front.len()].copy_from_slice(front);
        self.0 = rest;
        Ok(front.len())
    }
}

struct Output(Vec<u8>);

impl Sink for Output {
    fn put(&mut self, piece: &[u8]) -> Result<usize, Failed> {
        self.0.try_reserve(piece.len()).map_err(|_| Failed)?;
        self.0.extend_from_slice(piece);
        Ok(piece.len())
    }
}

struct Last(UnsafeCell<Output>);
// SAFETY: a module has one thread.
unsafe impl Sync for Last {}
static LAST: Last = Last(UnsafeCell::new(Output(Vec::new())));

fn block(size: usize) -> Layout {
    // SAFETY: 16 is a power of two, and no block is nearly as large as the memory.
    unsafe { Layout::from_size_align_unchecked(size.max(1), 16) }
}

/// The place of that many bytes, or 0 where the host gives no memory.
#[unsafe(no_mangle)]
extern "C" fn room(size: usize) -> *mut u8 {
    // SAFETY: the layout has a size.
    unsafe { HEAP.alloc(block(size)) }
}

fn words_of(spelled: &[u8]) -> Result<Option<Words<Word>>, AllocError> {
    let mut words = Words::new(Global);
    for spelling in spelled.split_inclusive(|byte| *byte == 0) {
        let Ok(word) = core::str::from_utf8(&spelling[..spelling.len() - 1]) else {
            return Ok(None);
        };
        words.push(Word::from_str(Global, word)?)?;
    }
    Ok(Some(words))
}

fn is_planners(words: &[Word]) -> bool {
    let is_number = |word: &Word| !word.as_str().is_empty() && word.as_str().bytes().all(|byte| byte.is_ascii_digit());
    words.first().is_some_and(|word| {
        PLANNERS.contains(&word.as_str()) || SEEDED.contains(&word.as_str()) && words.get(1).is_some_and(is_number)
    })
}

fn answer(spelled: &[u8], input: &[u8], output: &mut Output) -> u32 {
    let words = match words_of(spelled) {
        Ok(Some(words)) => words,
        Ok(None) => return NOT_UTF8,
        Err(AllocError) => return OUT_OF_MEMORY,
    };
    let mut source = Input(input);
    if is_planners(&words) {
        return u32::from(plan_commands::plan_top(Global, &words, &mut source, output));
    }
    u32::from(run_commands::top(Global, &words, &mut source, output).status)
}

/// The status of the program that has the command, for these words and this input, whose places `room` gave: both are freed.
#[unsafe(no_mangle)]
extern "C" fn call(words: *mut u8, words_size: usize, input: *mut u8, input_size: usize) -> u32 {
    // SAFETY: the host has filled both places, whose sizes these are, and calls once at a time.
    unsafe {
        let last = &mut *LAST.0.get();
        last.0 = Vec::new();
        let status = answer(core::slice::from_raw_parts(words, words_size), core::slice::from_raw_parts(input, input_size), last);
        HEAP.dealloc(words, block(words_size));
        HEAP.dealloc(input, block(input_size));
        status
    }
}

/// The place of what the last call wrote.
#[unsafe(no_mangle)]
extern "C" fn output() -> *const u8 {
    // SAFETY: no call is under way.
    unsafe { (*LAST.0.get()).0.as_ptr() }
}

/// How many bytes it has.
#[unsafe(no_mangle)]
extern "C" fn output_length() -> usize {
    // SAFETY: no call is under way.
    unsafe { (*LAST.0.get()).0.len() }
}
