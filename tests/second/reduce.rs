//! Makes a book smaller while a fault in it stays: first lines go, then runs of name bytes, then bytes.

use crate::engine::name_byte;

pub fn reduce(text: &[u8], faulty: &mut dyn FnMut(&[u8]) -> bool) -> Vec<u8> {
    let mut text = text.to_vec();
    loop {
        let length = text.len();
        for lengths in [lines, words, bytes] {
            let pieces = lengths(&text);
            text = drop_pieces(text, pieces, faulty);
        }
        if text.len() == length {
            return text;
        }
    }
}

fn lines(text: &[u8]) -> Vec<usize> {
    text.split_inclusive(|&byte| byte == b'\n').map(<[u8]>::len).collect()
}

/// Runs of name bytes, and what stands between them.
fn words(text: &[u8]) -> Vec<usize> {
    let mut lengths = Vec::new();
    let mut start = 0;
    for at in 1..=text.len() {
        if at == text.len() || name_byte(text[at]) != name_byte(text[at - 1]) {
            lengths.push(at - start);
            start = at;
        }
    }
    lengths
}

fn bytes(text: &[u8]) -> Vec<usize> {
    vec![1; text.len()]
}

/// Drops groups of neighbouring pieces, given by their lengths: large groups first, down to single ones.
fn drop_pieces(mut text: Vec<u8>, mut pieces: Vec<usize>, faulty: &mut dyn FnMut(&[u8]) -> bool) -> Vec<u8> {
    let mut group = pieces.len();
    while group > 0 {
        let (mut piece, mut at) = (0, 0);
        while piece < pieces.len() {
            let last = pieces.len().min(piece + group);
            let end = at + pieces[piece..last].iter().sum::<usize>();
            let less = [&text[..at], &text[end..]].concat();
            if faulty(&less) {
                text = less;
                pieces.drain(piece..last);
            } else {
                (piece, at) = (last, end);
            }
        }
        group /= 2;
    }
    text
}
