//! The slip told by sets of bytes: big ends first, keys and ranks rise as their
//! bytes do.

use std::collections::BTreeSet;

use super::common::*;
use second::*;

/// Keys of 8 bytes, and claims with their cnt before the rest.
#[derive(Clone, Default, PartialEq)]
pub struct Sets {
    pub keys: BTreeSet<Vec<u8>>,
    pub claims: BTreeSet<Vec<u8>>,
}

impl Sets {
    /// What the bytes of an image in order say, all of it.
    pub fn of(image: &[u8]) -> Sets {
        let keys = usize::from(image[0]) * 256 + usize::from(image[1]);
        let (keys, claims) = image[2..].split_at(8 * keys);
        let turned = |claim: &[u8]| [&claim[24..], &claim[..24]].concat();
        Sets {
            keys: keys.chunks(8).map(<[u8]>::to_vec).collect(),
            claims: claims[2..].chunks(26).map(turned).collect(),
        }
    }

    /// What both have.
    pub fn union(&self, other: &Sets) -> Sets {
        Sets {
            keys: &self.keys | &other.keys,
            claims: &self.claims | &other.claims,
        }
    }

    /// "the first 64 kept"
    pub fn cut(mut self) -> Sets {
        while self.claims.len() > 64 {
            self.claims.pop_last();
        }
        self
    }

    pub fn image(&self) -> Vec<u8> {
        let mut bytes = (self.keys.len() as u16).to_be_bytes().to_vec();
        bytes.extend(self.keys.iter().flatten());
        bytes.extend((self.claims.len() as u16).to_be_bytes());
        for claim in &self.claims {
            bytes.extend(&claim[2..]);
            bytes.extend(&claim[..2]);
        }
        bytes
    }
}

/// What an image says without that which slip 2 leaves out.
pub fn used(image: &[u8]) -> Sets {
    Sets::of(&without_left_out(image))
}

/// What two images together say, before 64 claims are kept.
pub fn together(first: &[u8], second: &[u8]) -> Sets {
    used(first).union(&used(second))
}

/// The image that two become, by the text.
pub fn told(first: &[u8], second: &[u8]) -> Vec<u8> {
    together(first, second).cut().image()
}

/// The model itself, on images written by hand.
#[test]
fn the_model_by_hand() {
    let first = image_of(&[1, 7, 256], &[c(7, 7, 7, 1), c(1, 7, 0, 4)]);
    let left_out = three(2, 7, 7);
    let second = image_of(&[2, 7], &[c(2, 2, 2, 1), c(7, 7, 7, 1), left_out]);
    let both = image_of(
        &[1, 2, 7, 256],
        &[c(2, 2, 2, 1), c(7, 7, 7, 1), c(1, 7, 0, 4)],
    );
    assert_eq!(told(&first, &second), both);
    assert_eq!(super::joined(&first, &second), both);
    assert_eq!(Sets::of(&second).image(), second);
    assert_ne!(used(&second).image(), second);
}

/// Of 65 the last falls, by the whole rank and not by its lowest bytes.
#[test]
fn the_model_keeps_64() {
    let keys: Vec<u64> = (0..66).map(|at| at * 250).collect();
    let claims: Vec<Claim> = keys[1..].iter().map(|&hi| c(0, hi, hi, 2)).collect();
    let [first, second] = [&claims[..60], &claims[60..]].map(|it| image_of(&keys, it));
    assert_eq!(told(&first, &second), image_of(&keys, &claims[..64]));
}
