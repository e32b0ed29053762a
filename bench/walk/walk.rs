//! The program that walks code words bit by bit, written to be timed: channel streams and stereo payloads read into all of their numbers,
//! called from C as the proved library is. Its trees are built once, by walk_prepare; nothing is allocated after that.

mod bits;
mod channel;
mod stereo;
mod trees;

use bits::{Bits, List, Nobody};
use channel::Channel;
use std::slice::{from_raw_parts, from_raw_parts_mut};
use std::sync::atomic::{AtomicPtr, Ordering};
use stereo::{Answer, State};
use trees::Trees;

static TREES: AtomicPtr<Trees> = AtomicPtr::new(std::ptr::null_mut());

/// The trees are built, for all calls after this one.
#[no_mangle]
pub extern "C" fn walk_prepare() {
    TREES.store(Box::into_raw(Box::new(Trees::new())), Ordering::Release);
}

fn trees() -> &'static Trees {
    // what walk_prepare stored is never taken back
    unsafe { TREES.load(Ordering::Acquire).as_ref() }.expect("walk_prepare was called")
}

/// The part of a buffer, where there is one.
fn part(buffer: &[u8], start: u64, end: u64) -> Option<&[u8]> {
    buffer.get(start as usize..end as usize)
}

/// As oarcradler_read_channel.
///
/// # Safety
/// Each pointer leads to as many elements as the size after it says, and no two buffers overlap.
#[no_mangle]
pub unsafe extern "C" fn walk_read_channel(
    buffer: *const u8,
    buffer_size: u64,
    start: u64,
    end: u64,
    index: u32,
    lines: *mut i16,
    line_count: u64,
    factors: *mut u8,
    factors_size: u64,
    books: *mut u8,
    books_size: u64,
    answer: *mut u8,
    answer_size: u64,
) -> u32 {
    let bytes = match part(from_raw_parts(buffer, buffer_size as usize), start, end) {
        Some(bytes) => bytes,
        None => return 1,
    };
    if line_count < 1024 || factors_size < 120 || books_size < 120 || answer_size < 17 {
        return 2;
    }
    if ![3, 4, 6, 7].contains(&index) {
        return 3;
    }
    let mut found = Channel::silent();
    if let Err(refusal) = channel::read(&mut Bits::new(bytes, trees(), Nobody), index, &mut found) {
        return refusal.returned();
    }
    from_raw_parts_mut(lines, 1024).copy_from_slice(&found.lines);
    from_raw_parts_mut(factors, 120).copy_from_slice(&found.factors);
    from_raw_parts_mut(books, 120).copy_from_slice(&found.books);
    put_channel(&found, from_raw_parts_mut(answer, 17));
    0
}

/// The 17 bytes of a channel answer.
fn put_channel(found: &Channel, answer: &mut [u8]) {
    answer[..4].copy_from_slice(&found.bits.to_be_bytes());
    answer[4..9].copy_from_slice(&[found.gain, found.sequence, found.shape, found.max_sfb, found.group_count]);
    answer[9..17].copy_from_slice(&found.groups);
}

/// As oarcradler_read_stereo.
///
/// # Safety
/// Each pointer leads to as many bytes as the size after it says, and no two buffers overlap.
#[no_mangle]
pub unsafe extern "C" fn walk_read_stereo(
    state: *mut u8,
    state_size: u64,
    buffer: *const u8,
    buffer_size: u64,
    start: u64,
    end: u64,
    answer: *mut u8,
    answer_size: u64,
) -> u32 {
    let bytes = match part(from_raw_parts(buffer, buffer_size as usize), start, end) {
        Some(bytes) => bytes,
        None => return 1,
    };
    if answer_size < 582 {
        return 2;
    }
    if state_size < 146 || !stereo::is_sound(&*state.cast::<State>()) {
        return 4;
    }
    let (state, mut found) = (&mut *state.cast::<State>(), Answer::empty());
    match stereo::read(&mut Bits::new(bytes, trees(), Nobody), state, &mut found) {
        Ok(next) => {
            *state = next;
            answer.cast::<Answer>().write(found);
            0
        }
        Err(refusal) => {
            state.in_step = 0;
            refusal.returned()
        }
    }
}

/// Each word of a list, pairs of its place and its table, is read where it stands, in a payload that ends at a bit: the sum of entries and
/// of the places after the words, modulo 2^24, a place modulo 2^16.
///
/// # Safety
/// Each pointer leads to as many elements as the size after it says.
#[no_mangle]
pub unsafe extern "C" fn walk_words(bytes: *const u8, size: u64, end: u32, words: *const u32, count: u64) -> u32 {
    let mut b = Bits::new(from_raw_parts(bytes, size as usize), trees(), Nobody);
    b.end = end as usize;
    let mut sum = 0;
    for word in from_raw_parts(words, count as usize).chunks_exact(2) {
        b.at = word[0] as usize;
        if let Ok(entry) = b.word(word[1] as usize) {
            sum = (sum + entry + b.at % 65536) % 16777216;
        }
    }
    sum as u32
}

/// The words of a channel stream as they are read, pairs in a lent list: how many numbers of it are used.
///
/// # Safety
/// Each pointer leads to as many elements as the size after it says.
#[no_mangle]
pub unsafe extern "C" fn walk_list_channel(bytes: *const u8, size: u64, index: u32, words: *mut u32, room: u64) -> u64 {
    let list = List { pairs: from_raw_parts_mut(words, room as usize), used: 0 };
    let mut b = Bits::new(from_raw_parts(bytes, size as usize), trees(), list);
    let _numbers = channel::read(&mut b, index, &mut Channel::silent());
    b.listener.used as u64
}

/// The words of a stereo payload that is read from a state, likewise.
///
/// # Safety
/// Each pointer leads to as many elements as the size after it says, and the state to 146 bytes.
#[no_mangle]
pub unsafe extern "C" fn walk_list_stereo(state: *const u8, bytes: *const u8, size: u64, words: *mut u32, room: u64) -> u64 {
    let list = List { pairs: from_raw_parts_mut(words, room as usize), used: 0 };
    let mut b = Bits::new(from_raw_parts(bytes, size as usize), trees(), list);
    let _numbers = stereo::read(&mut b, &*state.cast::<State>(), &mut Answer::empty());
    b.listener.used as u64
}
