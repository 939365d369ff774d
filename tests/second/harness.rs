//! One call of the engine under test, beside the second engine: every byte of what was lent is compared.

use std::fs::File;
use std::io;
use std::os::unix::fs::FileExt;
use std::path::{Path, PathBuf};
use std::ptr::NonNull;
use std::sync::atomic::{AtomicU64, Ordering};

use crate::engine::{Answer, Judged, Refusal};
use crate::figures::LISTING_BYTES;
use crate::random::Random;
use crate::tally::Tally;

extern "C" {
    fn dpb_list(text: *const u8, text_len: usize, folds: u64, listing: *mut u8, listing_len: usize) -> u64;
}

/// Calls that have come back; the watch in main looks whether it moves.
pub static ENDED: AtomicU64 = AtomicU64::new(0);

/// How a call is lent its areas: where they stand in their rooms, how long the listing area is, and what junk is in it.
#[derive(Clone, Copy)]
pub struct Lent {
    pub folds: u64,
    pub area: usize,
    pub text_at: usize,
    pub area_at: usize,
    pub junk: u64,
}

impl Lent {
    /// A listing area that is long enough, and often longer.
    pub fn usual(folds: u64, r: &mut Random) -> Lent {
        let area = match r.below(64) {
            0 => 65_536 + r.below(LISTING_BYTES),
            1..=20 => LISTING_BYTES,
            _ => LISTING_BYTES + r.below(200),
        };
        Lent { folds, area, text_at: r.below(16), area_at: r.below(16), junk: r.next() }
    }

    pub fn short(folds: u64, r: &mut Random) -> Lent {
        let area = match r.below(5) {
            0 => 0,
            1 => 1,
            2 => r.below(LISTING_BYTES),
            _ => LISTING_BYTES - 1,
        };
        Lent { area, ..Lent::usual(folds, r) }
    }
}

pub struct Difference {
    pub text: Vec<u8>,
    pub lent: Lent,
    pub what: String,
    pub tested: String,
    pub second: String,
}

impl Difference {
    /// Both engines gave one answer, and it is not the expected one.
    pub fn unexpected(text: &[u8], lent: Lent, heard: &Heard, what: &str, expected: String) -> Difference {
        let tested = show(heard);
        Difference { text: text.to_vec(), lent, what: format!("{what}; expected {expected}"), second: tested.clone(), tested }
    }
}

/// What the engine under test gave for a call in which the two engines agreed.
pub type Heard = Result<Vec<u8>, Refusal>;

pub struct Harness {
    text_room: Vec<u8>,
    before: Vec<u8>,
    after: Vec<u8>,
    at_hand: Option<File>,
    pub folder: PathBuf,
    pub calls: u64,
    pub tally: Tally,
}

impl Harness {
    pub fn new(folder: &Path) -> io::Result<Harness> {
        std::fs::create_dir_all(folder)?;
        let at_hand = Some(File::create(folder.join("at-hand"))?);
        let (text_room, before, after) = (Vec::new(), Vec::new(), Vec::new());
        Ok(Harness { text_room, before, after, at_hand, folder: folder.to_path_buf(), calls: 0, tally: Tally::default() })
    }

    /// Keeps the text on disk while it is called with, so that it is there if a call ends the program or never ends.
    pub fn take_up(&mut self, text: &[u8]) {
        let file = self.at_hand.as_ref().expect("open until the end");
        let kept = file.set_len(text.len() as u64).and_then(|()| file.write_all_at(text, 0));
        kept.expect("the book at hand cannot be written");
    }

    pub fn finish(&mut self) -> io::Result<()> {
        self.at_hand = None;
        std::fs::remove_file(self.folder.join("at-hand"))
    }

    /// One text, judged anew, in one call.
    pub fn check_text(&mut self, text: &[u8], lent: Lent) -> Result<Heard, Difference> {
        self.take_up(text);
        self.check(text, &Judged::new(text), lent)
    }

    /// One call. An answer of the second engine that breaks its own assertions is a difference too.
    pub fn check(&mut self, text: &[u8], judged: &Judged, lent: Lent) -> Result<Heard, Difference> {
        let code = self.call(text, lent);
        let answer = judged.answer(lent.folds, lent.area);
        match (self.judge(text, code, &answer, lent), answer.said) {
            (None, Err(refusal)) => Ok(Err(refusal)),
            (None, Ok(_)) => Ok(Ok(self.listed(lent))),
            (Some(what), said) => Err(Difference { what: what.to_string(), ..self.difference(text, code, said, lent) }),
        }
    }

    /// The listing that the call left, without the zeros after it.
    fn listed(&self, lent: Lent) -> Vec<u8> {
        let area = &self.after[lent.area_at..lent.area_at + LISTING_BYTES];
        area.iter().copied().take_while(|&byte| byte != 0).collect()
    }

    fn call(&mut self, text: &[u8], lent: Lent) -> u64 {
        self.lay_out(text, lent);
        let text_part = &self.text_room[lent.text_at..lent.text_at + text.len()];
        let area = &mut self.after[lent.area_at..lent.area_at + lent.area];
        // An empty part may dangle: the call must not look at what a length of 0 points to.
        let dangling = NonNull::<u8>::dangling().as_ptr();
        let may_dangle = lent.junk % 2 == 0;
        let from = if text.is_empty() && may_dangle { dangling as *const u8 } else { text_part.as_ptr() };
        let to = if area.is_empty() && may_dangle { dangling } else { area.as_mut_ptr() };
        // Both parts are ours, apart from each other, and as long as is said.
        let code = unsafe { dpb_list(from, text.len(), lent.folds, to, area.len()) };
        ENDED.fetch_add(1, Ordering::Relaxed);
        self.calls += 1;
        code
    }

    /// Both areas stand within larger rooms full of junk.
    fn lay_out(&mut self, text: &[u8], lent: Lent) {
        let mut junk = Random::new(lent.junk, 0);
        self.text_room.clear();
        self.text_room.resize(lent.text_at, junk.byte());
        self.text_room.extend_from_slice(text);
        self.text_room.extend_from_slice(b"a:\nb:\n#\n");
        self.before.resize(lent.area_at + lent.area + 24, 0);
        junk.fill(&mut self.before);
        self.after.clone_from(&self.before);
    }

    /// What is wrong with the call's outcome, if anything.
    fn judge(&self, text: &[u8], code: u64, answer: &Answer, lent: Lent) -> Option<&'static str> {
        let expected = answer.said.as_ref().map_or_else(|refusal| refusal.code(), |_| 0);
        if answer.doubt.is_some() {
            answer.doubt
        } else if code != expected {
            Some("the returned number")
        } else if self.text_room[lent.text_at..lent.text_at + text.len()] != *text {
            Some("the text was changed")
        } else {
            self.judge_room(answer, lent)
        }
    }

    fn judge_room(&self, answer: &Answer, lent: Lent) -> Option<&'static str> {
        let listing = match &answer.said {
            Err(_) if self.after == self.before => return None,
            Err(_) => return Some("the listing area was touched on a refusal"),
            Ok(listing) => listing,
        };
        let (first, end) = (lent.area_at, lent.area_at + LISTING_BYTES);
        let (text, rest) = self.after[first..end].split_at(listing.len());
        if text != listing.as_slice() {
            Some("the listing")
        } else if rest.iter().any(|&byte| byte != 0) {
            Some("the listing area is not zero after the text")
        } else if self.after[..first] != self.before[..first] || self.after[end..] != self.before[end..] {
            Some("bytes past the listing area's stated size were touched")
        } else {
            None
        }
    }

    fn difference(&self, text: &[u8], code: u64, said: Heard, lent: Lent) -> Difference {
        let tested = match code {
            0 => show(&Ok(self.after[lent.area_at..lent.area_at + lent.area.min(LISTING_BYTES)].to_vec())),
            code => show(&Err(Refusal { number: code / 65_536, line: code % 65_536 })),
        };
        Difference { text: text.to_vec(), lent, what: String::new(), tested, second: show(&said) }
    }
}

/// An answer in one line, the zeros after a listing left out.
pub fn show(answer: &Heard) -> String {
    match answer {
        Err(refusal) => format!("refused={} line={}", refusal.number, refusal.line),
        Ok(listing) => {
            let end = listing.iter().rposition(|&byte| byte != 0).map_or(0, |last| last + 1);
            format!("{:?}", String::from_utf8_lossy(&listing[..end.min(300)]))
        }
    }
}
