//! Two kiosks over a radio that loses every other frame, until they agree.

use minutefrost::{
    BEAT_FRAMES, EMPTY_IMAGE, IMAGE_MOST, Refusal, beat, enter, frames, keys, take_frame,
};

/// A kiosk is its image, which a daemon keeps on its card.
struct Kiosk {
    image: Vec<u8>,
}

impl Kiosk {
    /// A new kiosk holds no keys.
    fn new() -> Kiosk {
        let image = EMPTY_IMAGE.to_vec();
        Kiosk { image }
    }

    /// A book was lent or came back: its slip has this key.
    fn enter(&mut self, key: u64) -> Result<(), Refusal> {
        let mut out = [0; IMAGE_MOST];
        let length = enter(&self.image, key, &mut out)?;
        self.image = out[..length].to_vec();
        Ok(())
    }

    /// A frame came by radio.
    fn hear(&mut self, frame: &[u8]) -> Result<(), Refusal> {
        let mut out = [0; IMAGE_MOST];
        let length = take_frame(&self.image, frame, &mut out)?;
        self.image = out[..length].to_vec();
        Ok(())
    }

    /// Time for a beat: the frames to send.
    fn speak(&mut self) -> Result<Vec<Vec<u8>>, Refusal> {
        let (mut out, mut sent) = ([0; IMAGE_MOST], [0; BEAT_FRAMES]);
        let beaten = beat(&self.image, &mut out, &mut sent)?;
        self.image = out[..beaten.image].to_vec();
        Ok(frames(&sent[..beaten.frames]).map(<[u8]>::to_vec).collect())
    }
}

/// A radio with a seed, so that each run is the same.
struct Radio(u64);

impl Radio {
    fn draw(&mut self) -> u64 {
        self.0 ^= self.0 << 13;
        self.0 ^= self.0 >> 7;
        self.0 ^= self.0 << 17;
        self.0
    }

    /// Of eight frames four are lost, one comes twice and three come once.
    fn copies_that_arrive(&mut self) -> usize {
        [0, 0, 0, 0, 1, 1, 1, 2][(self.draw() >> 61) as usize]
    }
}

fn main() -> Result<(), Refusal> {
    let mut radio = Radio(2022);
    let mut kiosks = [Kiosk::new(), Kiosk::new()];
    // 500 slips that both know, 12 that only one knows, 12 that only the other.
    for slip in 0..524 {
        let key = radio.draw();
        if slip < 512 {
            kiosks[0].enter(key)?;
        }
        if slip >= 12 {
            kiosks[1].enter(key)?;
        }
    }

    for beats in 0.. {
        let [left, right] = [keys(&kiosks[0].image)?, keys(&kiosks[1].image)?];
        let agree = left.clone().eq(right.clone());
        if agree || beats % 32 == 0 {
            let (left, right) = (left.len(), right.len());
            println!("after {beats} beats: {left} keys and {right} keys");
        }
        if agree {
            break;
        }
        for (speaker, hearer) in [(0, 1), (1, 0)] {
            for frame in kiosks[speaker].speak()? {
                for _ in 0..radio.copies_that_arrive() {
                    kiosks[hearer].hear(&frame)?;
                }
            }
        }
    }
    println!("they agree");
    Ok(())
}
