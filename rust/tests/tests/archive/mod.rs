//! The host calls on images, of the archive and of the second program, side by
//! side.

#![allow(dead_code)] // Each test file is a program that uses a part of this.

use second::*;
use tests::draw::Rng;

/// Bytes past the end of each lent buffer, which no call may touch.
const GUARD: usize = 24;

/// One call: what it is given, and how much of each buffer is lent.
pub enum Asked {
    Take(Vec<u8>, Vec<u8>, usize),
    Beat(Vec<u8>, usize, usize),
    Enter(Vec<u8>, u64, usize),
    Count(Vec<u8>),
    Sheet(Vec<u8>, usize),
    Join(Vec<u8>, Vec<u8>, usize),
}

/// What a call leaves: its answer, and both buffers with their guards.
#[derive(PartialEq, Eq)]
pub struct Left {
    pub answer: i64,
    pub out: Vec<u8>,
    pub frames: Vec<u8>,
}

/// A buffer of noise, so that what isn't written can be told.
fn buffer(seed: u64, lent: usize) -> Vec<u8> {
    let mut noise = Rng(seed ^ lent as u64);
    (0..lent + GUARD).map(|_| noise.next() as u8).collect()
}

/// The six calls of a program that are given an image, their answers as the
/// archive gives them.
pub struct Program {
    take_frame: fn(&[u8], &[u8], &mut [u8]) -> i64,
    beat: fn(&[u8], &mut [u8], &mut [u8]) -> i64,
    enter: fn(&[u8], u64, &mut [u8]) -> i64,
    count: fn(&[u8]) -> i64,
    sheet: fn(&[u8], &mut [u8]) -> i64,
    join: fn(&[u8], &[u8], &mut [u8]) -> i64,
}

pub const SECOND: Program = Program {
    take_frame: host::take_frame,
    beat: host::beat,
    enter: host::enter,
    count: host::count,
    sheet: host::sheet,
    join: host::join,
};

pub const ARCHIVE: Program = Program {
    take_frame: |image, frame, out| number_or(minutefrost::take_frame(image, frame, out)),
    beat: |image, out, frames| {
        number_or(minutefrost::beat(image, out, frames).map(|beaten| beaten.frames))
    },
    enter: |image, key, out| number_or(minutefrost::enter(image, key, out)),
    count: |image| number_or(minutefrost::keys(image).map(|keys| keys.len())),
    sheet: |image, out| number_or(minutefrost::sheet(image, out)),
    join: |first, second, out| number_or(minutefrost::join(first, second, out)),
};

fn number_or(length: Result<usize, minutefrost::Refusal>) -> i64 {
    match length {
        Ok(length) => length as i64,
        Err(refusal) => -i64::from(refusal.number()),
    }
}

impl Asked {
    /// Both buffers as they are lent; a call without one has none.
    fn lent(&self, seed: u64) -> (Vec<u8>, Vec<u8>) {
        match self {
            Asked::Take(_, _, lent) | Asked::Join(_, _, lent) => (buffer(seed, *lent), Vec::new()),
            Asked::Enter(_, _, lent) | Asked::Sheet(_, lent) => (buffer(seed, *lent), Vec::new()),
            Asked::Beat(_, lent, lent_frames) => (buffer(seed, *lent), buffer(!seed, *lent_frames)),
            Asked::Count(_) => (Vec::new(), Vec::new()),
        }
    }

    /// The image that it is given, of two the first.
    pub fn image(&self) -> &[u8] {
        match self {
            Asked::Take(image, ..) | Asked::Beat(image, ..) | Asked::Join(image, ..) => image,
            Asked::Enter(image, ..) | Asked::Count(image) | Asked::Sheet(image, _) => image,
        }
    }

    /// The same call, given another image, of two in the place of the first.
    pub fn given(&self, image: Vec<u8>) -> Asked {
        match self {
            Asked::Take(_, frame, lent) => Asked::Take(image, frame.clone(), *lent),
            Asked::Beat(_, lent, frames) => Asked::Beat(image, *lent, *frames),
            Asked::Enter(_, key, lent) => Asked::Enter(image, *key, *lent),
            Asked::Count(_) => Asked::Count(image),
            Asked::Sheet(_, lent) => Asked::Sheet(image, *lent),
            Asked::Join(_, second, lent) => Asked::Join(image, second.clone(), *lent),
        }
    }

    /// Makes the call by one of the programs.
    pub fn by(&self, seed: u64, program: &Program) -> Left {
        let (mut out, mut frames) = self.lent(seed);
        let answer = match self {
            Asked::Take(image, frame, lent) => {
                (program.take_frame)(image, frame, &mut out[..*lent])
            }
            Asked::Beat(image, lent, lent_frames) => {
                (program.beat)(image, &mut out[..*lent], &mut frames[..*lent_frames])
            }
            Asked::Enter(image, key, lent) => (program.enter)(image, *key, &mut out[..*lent]),
            Asked::Count(image) => (program.count)(image),
            Asked::Sheet(image, lent) => (program.sheet)(image, &mut out[..*lent]),
            Asked::Join(first, second, lent) => (program.join)(first, second, &mut out[..*lent]),
        };
        Left {
            answer,
            out,
            frames,
        }
    }

    /// What the call leaves if it answers this, having written these bytes to
    /// the front of its buffers and nothing else.
    pub fn leaving(&self, seed: u64, answer: i64, image: &[u8], sent: &[u8]) -> Left {
        let (mut out, mut frames) = self.lent(seed);
        out[..image.len()].copy_from_slice(image);
        frames[..sent.len()].copy_from_slice(sent);
        Left {
            answer,
            out,
            frames,
        }
    }
}

/// The number of a refusal, 0 if there was none.
pub fn number(answer: i64) -> u8 {
    if answer < 0 { -answer as u8 } else { 0 }
}

/// The image and the frames' bytes that a call leaves which isn't refused, by
/// both programs.
pub fn left_by(asked: Asked) -> (Vec<u8>, Vec<u8>) {
    let left = compare(&asked, 0);
    assert!(left.answer >= 0, "refused {}", -left.answer);
    let image = left.out[..image_length(&left.out).length].to_vec();
    let frames = match asked {
        Asked::Beat(..) => left.frames[..left.answer as usize].to_vec(),
        _ => Vec::new(),
    };
    (image, frames)
}

/// What a call writes that answers the length of it, a sheet or an image, by both
/// programs, or the number of its refusal. Nothing else is written.
pub fn written_by(asked: &Asked, seed: u64) -> Result<Vec<u8>, u8> {
    let left = compare(asked, seed);
    let written = left.out[..left.answer.max(0) as usize].to_vec();
    let wanted = asked.leaving(seed, left.answer, &written, &[]);
    assert!(left == wanted, "the rest stays");
    match number(left.answer) {
        0 => Ok(written),
        number => Err(number),
    }
}

/// What the archive leaves, and the second program with it.
pub fn compare(asked: &Asked, seed: u64) -> Left {
    let found = asked.by(seed, &ARCHIVE);
    let wanted = asked.by(seed, &SECOND);
    assert_eq!(found.answer, wanted.answer, "the answer");
    assert!(found.out == wanted.out, "the image's or the sheet's buffer");
    assert!(found.frames == wanted.frames, "the frames' buffer");
    found
}
