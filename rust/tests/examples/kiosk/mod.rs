//! A kiosk that makes the archive's calls, and the writing of its card.

use std::path::Path;
use std::{fs, io, mem};

use minutefrost::{EMPTY_IMAGE, IMAGE_MOST, beat, enter, frames, keys, take_frame};
use tests::draw::Rng;
use tests::replies::FORMER_FRAMES;

/// A kiosk is its image.
pub struct Kiosk(pub Vec<u8>);

impl Kiosk {
    pub fn of(keys: impl IntoIterator<Item = u64>) -> Kiosk {
        let mut kiosk = Kiosk(EMPTY_IMAGE.to_vec());
        keys.into_iter().for_each(|key| kiosk.enter(key));
        kiosk
    }

    /// One of two kiosks that began with so many keys each, none the same,
    /// when they have heard so many beats of each other in turns.
    pub fn hearer(rng: &mut Rng, keys: usize, beats: usize) -> Kiosk {
        let [mut other, mut kiosk] = [0; 2].map(|_| Kiosk::of((0..keys).map(|_| rng.next())));
        for _ in 0..beats {
            mem::swap(&mut kiosk, &mut other);
            kiosk.hear(&other.beat());
        }
        kiosk
    }

    pub fn enter(&mut self, key: u64) {
        let mut out = [0; IMAGE_MOST];
        let length = enter(&self.0, key, &mut out).expect("there is room");
        self.0 = out[..length].to_vec();
    }

    /// Hears frames that stand end to end, as a beat sends them.
    pub fn hear(&mut self, sent: &[u8]) {
        for frame in frames(sent) {
            let mut out = [0; IMAGE_MOST];
            let length = take_frame(&self.0, frame, &mut out).expect("the frame is taken");
            self.0 = out[..length].to_vec();
        }
    }

    /// With room for the frames of an earlier state's beat: its archive may be
    /// the one that is called.
    pub fn beat(&mut self) -> Vec<u8> {
        let (mut out, mut sent) = ([0; IMAGE_MOST], [0; FORMER_FRAMES]);
        let beaten = beat(&self.0, &mut out, &mut sent).expect("an image");
        self.0 = out[..beaten.image].to_vec();
        sent[..beaten.frames].to_vec()
    }

    pub fn keys(&self) -> impl ExactSizeIterator<Item = u64> {
        keys(&self.0).expect("an image")
    }

    /// How many claims are pending, as the image's bytes tell it.
    pub fn pending(&self) -> usize {
        let at = 2 + 8 * self.keys().len();
        usize::from(u16::from_be_bytes([self.0[at], self.0[at + 1]]))
    }

    /// Enters keys until there are so many.
    pub fn filled(mut self, rng: &mut Rng, count: usize) -> Kiosk {
        while self.keys().len() < count {
            self.enter(rng.next());
        }
        self
    }

    /// Writes the card's two files; its row for the README beside them.
    pub fn write(mut self, folder: &Path, name: &str) -> io::Result<String> {
        fs::create_dir_all(folder)?;
        fs::write(folder.join(name).with_extension("image"), &self.0)?;
        let (count, sum) = (self.keys().len(), self.keys().fold(0, |sum, key| sum ^ key));
        let (length, pending, sent) = (self.0.len(), self.pending(), self.beat());
        fs::write(folder.join(name).with_extension("frames"), &sent)?;
        let frames = frames(&sent).count();
        let row = format!("| {name} | {count} | {sum} | {pending} | {length} | {frames} |");
        Ok(row)
    }
}
