//! Damage to a text, and padding it to a length.

use crate::engine::name_byte;
use crate::figures::{MARK, NAME_BYTES};
use crate::random::Random;

/// What leaves most lines without a listed form: a colon, a second head, bytes that are barred, a name one byte too long. Where a name byte
/// stands before, the blank parts them.
pub const FAULTS: [&[u8]; 8] = [b" :", b" a ", b" \r", b"\r", b" #", b"\0", b"!", &OVERLONG];
const OVERLONG: [u8; NAME_BYTES + 2] = {
    let mut bytes = [b'x'; NAME_BYTES + 2];
    bytes[0] = b' ';
    bytes
};

/// One wound of any sort. It may miss, and it may leave a good book.
pub fn hurt(text: &mut Vec<u8>, r: &mut Random) {
    if text.is_empty() {
        return;
    }
    match r.below(24) {
        0 => flip(text, r),
        1 => overwrite(text, r),
        2..=4 => insert(text, r),
        5 => drop_bytes(text, r),
        6 => text.truncate(r.below(text.len() + 1)),
        7 => drop(text.pop()),
        8 => carriage_returns(text, r),
        9 => insert_at(text, b':', b":", r),
        10 => respell(text, NAME_BYTES + r.below(2), r),
        11 => insert_at(text, b'\n', b" #", r),
        12 => insert_at(text, b'\n', b"#", r),
        13 => insert_at(text, b'\n', b"\t", r),
        14 => repeat_line(text, r),
        15 => replace(text, b'\n', b"", r),
        16 => replace(text, b':', b"", r),
        17 => replace(text, b' ', b"\t", r),
        18..=19 => respell(text, NAME_BYTES + 1 + r.pick(&[0, 0, 1, NAME_BYTES]), r),
        20..=21 => faults(text, r),
        22 => text.extend_from_slice(r.pick(&[b"a".as_slice(), b"a:", b"\n", b"\n\n", b"\r\n", b"#", b"\0"])),
        _ => mark(text, r),
    }
}

fn flip(text: &mut [u8], r: &mut Random) {
    text[r.below(text.len())] ^= 1 << r.below(8);
}

fn overwrite(text: &mut [u8], r: &mut Random) {
    text[r.below(text.len())] = r.byte();
}

fn insert(text: &mut Vec<u8>, r: &mut Random) {
    let at = r.below(text.len() + 1);
    let byte = if r.one_in(3) { r.byte() } else { r.pick(b"\r\n\t :#aZ\0\xff/@") };
    text.insert(at, byte);
}

fn drop_bytes(text: &mut Vec<u8>, r: &mut Random) {
    let first = r.below(text.len());
    let end = text.len().min(first + r.pick(&[1, 1, 2, 10]));
    text.drain(first..end);
}

fn places(text: &[u8], byte: u8) -> Vec<usize> {
    (0..text.len()).filter(|&at| text[at] == byte).collect()
}

/// Bytes put in after some place of a byte.
fn insert_at(text: &mut Vec<u8>, byte: u8, bytes: &[u8], r: &mut Random) {
    let places = places(text, byte);
    if !places.is_empty() {
        let at = r.pick(&places) + 1;
        text.splice(at..at, bytes.iter().copied());
    }
}

fn replace(text: &mut Vec<u8>, byte: u8, by: &[u8], r: &mut Random) {
    let places = places(text, byte);
    if !places.is_empty() {
        let at = r.pick(&places);
        text.splice(at..at + 1, by.iter().copied());
    }
}

/// A carriage return before every line end, or before one.
fn carriage_returns(text: &mut Vec<u8>, r: &mut Random) {
    if r.one_in(2) {
        replace(text, b'\n', b"\r\n", r);
    } else {
        let from = if r.one_in(2) { 0 } else { MARK.len().min(text.len()) };
        let tail = with_carriage_returns(&text[from..]);
        text.truncate(from);
        text.extend(tail);
    }
}

pub fn with_carriage_returns(text: &[u8]) -> Vec<u8> {
    let mut out = Vec::with_capacity(text.len() + text.len() / 4);
    for &byte in text {
        if byte == b'\n' {
            out.push(b'\r');
        }
        out.push(byte);
    }
    out
}

/// Some whole run of name bytes after the mark becomes one of the given length.
pub fn respell(text: &mut Vec<u8>, length: usize, r: &mut Random) {
    let is_name = |at: usize| at < text.len() && name_byte(text[at]);
    let starts: Vec<usize> = (MARK.len()..text.len()).filter(|&at| is_name(at) && !is_name(at - 1)).collect();
    if starts.is_empty() {
        return;
    }
    let start = r.pick(&starts);
    let end = (start..).find(|&at| !is_name(at)).unwrap_or(start);
    let byte = r.pick(b"q7._-Q");
    text.splice(start..end, vec![byte; length]);
}

/// One fault in some line after the mark, or two, of which the left one decides.
fn faults(text: &mut Vec<u8>, r: &mut Random) {
    let starts: Vec<usize> = places(text, b'\n').iter().map(|at| at + 1).filter(|&start| start < text.len()).collect();
    if starts.is_empty() {
        return;
    }
    let start = r.pick(&starts);
    for _ in 0..r.between(1, 2) {
        let length = text[start..].iter().position(|&byte| byte == b'\n').unwrap_or(text.len() - start);
        let at = start + r.below(length + 1);
        text.splice(at..at, r.pick(&FAULTS).iter().copied());
    }
}

fn repeat_line(text: &mut Vec<u8>, r: &mut Random) {
    let lines: Vec<&[u8]> = text.split_inclusive(|&b| b == b'\n').collect();
    let line = r.pick(&lines).to_vec();
    text.extend(line);
}

fn mark(text: &mut [u8], r: &mut Random) {
    let at = r.below(MARK.len().min(text.len()));
    text[at] = if r.one_in(2) { r.byte() } else { r.pick(b" 01Ddpb\r\nA") };
}

/// A remark without its line end.
pub fn remark(text: &mut Vec<u8>, length: usize, r: &mut Random) {
    text.push(b'#');
    for _ in 0..length {
        let byte = r.byte();
        text.push(if byte == b'\n' { b'\r' } else { byte });
    }
}

/// Adds remarks, blanks and empty lines at some line's start until the text has the length; a longer text stays.
pub fn pad(text: &mut Vec<u8>, length: usize, r: &mut Random) {
    let most = r.pick(&[1, 60, 1_000, 20_000]);
    let mut padding = Vec::new();
    while text.len() + padding.len() < length {
        let room = length - text.len() - padding.len() - 1;
        let line = room.min(r.below(most));
        match r.below(3) {
            0 if line > 0 => remark(&mut padding, line - 1, r),
            1 => padding.extend(vec![r.pick(b" \t"); line]),
            _ => {}
        }
        padding.push(b'\n');
    }
    let ends = places(text, b'\n');
    let at = if ends.is_empty() { text.len() } else { r.pick(&ends) + 1 };
    text.splice(at..at, padding);
}
