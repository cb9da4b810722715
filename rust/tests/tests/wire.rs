//! Frames and images that the proved libraries read and write, by `drill`, beside
//! the second program: same answer, same contents, same bytes, for bytes of any
//! kind.

use second::*;
use tests::card::*;
use tests::cases::{expect_wrong_sums, noise, run};
use tests::draw::{Rng, frame_of, image_of};
use tests::left_out;

const LIMIT: usize = RawStore::LIMIT;

/// Some bytes after the lent ones, which no call may touch.
fn past(rng: &mut Rng, bytes: &mut Vec<u8>) -> usize {
    let lent = bytes.len();
    for _ in 0..rng.below(9) {
        bytes.push(rng.next() as u8);
    }
    lent
}

#[test]
fn reads_frames() {
    run(12_000, &[0, 10, 11, 12, 13], &[left_out::FRAME], |rng| {
        let density = rng.density();
        let keys = rng.keys_of(20, density);
        let mut bytes = frame_of(&rng.frame_claims(&keys, density));
        for _ in 0..rng.pick(&[0, 0, 0, 1, 1, 2]) {
            rng.damage(&mut bytes);
        }
        if rng.one_in(12) && bytes.len() > 3 {
            // The version, or a count that the length doesn't bear out.
            let at = rng.pick(&[2, 3]);
            bytes[at] = rng.pick(&[0, 1, 2, 3, 4, 5, 255]);
        }
        let lent = past(rng, &mut bytes);
        read_frame_case(bytes, lent, &mut noise(rng))
    });
}

#[test]
fn writes_frames() {
    let ways = ["exactly enough", left_out::FRAME];
    run(8_000, &[0, 12, 13, 15], &ways, |rng| {
        let density = rng.density();
        let keys = rng.keys_of(20, density);
        let mut claims = rng.frame_claims(&keys, density);
        claims.resize_with(4, || Claim::new(rng.next(), rng.next(), rng.next(), 7));
        let four: [Claim; 4] = claims.try_into().expect("four");
        let n = match rng.below(12) {
            0 => rng.pick(&[0, 5, 6, 255, 256, 257, 260, 1 << 32, u64::MAX]),
            _ => 1 + rng.next() % 4,
        };
        let need = 4 + 26 * n.min(4) as usize;
        let lent = match rng.below(6) {
            0 => need - 1,
            1 => rng.below(need),
            2 => need + rng.below(30),
            3 => 108,
            _ => need,
        };
        let case = write_frame_case(four, n, lent, &mut noise(rng));
        let written = case.number == 0;
        case.on("exactly enough", written && lent == need)
    });
}

#[test]
fn reads_images() {
    let ways = ["all the bytes that there can be", left_out::SOME];
    run(8_000, &[0, 1, 14], &ways, |rng| {
        let mut bytes = match rng.below(10) {
            0 => {
                let (keys, _) = rng.nearly_full();
                let node = rng.node_of(&keys);
                image_of(node.store.held(), node.table())
            }
            1 => {
                let (keys, pending) = rng.saved();
                image_of(&keys, &pending)
            }
            _ => rng.image(),
        };
        for _ in 0..rng.pick(&[0, 0, 0, 1, 1, 2]) {
            rng.damage(&mut bytes);
        }
        if rng.one_in(12) && bytes.len() > 1 {
            let most = LIMIT as u16;
            let count = rng.pick(&[0, 1, 2, most - 1, most, most + 1, u16::MAX]);
            bytes[..2].copy_from_slice(&count.to_be_bytes());
        }
        let lent = past(rng, &mut bytes);
        let case = read_image_case(bytes, lent, &mut noise(rng));
        let read = case.number == 0;
        case.on(
            "all the bytes that there can be",
            read && lent == IMAGE_MOST,
        )
    });
}

#[test]
fn reads_images_of_too_many() {
    // More keys than fit, or 65 claims and more, the length being theirs.
    run(200, &[14], &[], |rng| {
        let density = rng.density();
        let keys = if rng.one_in(2) {
            LIMIT + 1 + rng.below(3)
        } else {
            rng.below(40)
        };
        let pending = if keys <= LIMIT {
            65 + rng.below(3)
        } else {
            rng.below(3)
        };
        let keys: Vec<u64> = (0..keys as u64).collect();
        let claims: Vec<Claim> = (0..pending).map(|_| rng.claim(&keys, density)).collect();
        let bytes = image_of(&keys, &claims);
        let lent = bytes.len();
        read_image_case(bytes, lent, &mut noise(rng))
    });
}

#[test]
fn writes_images() {
    let ways = ["exactly enough", left_out::NODE];
    let seen = run(6_000, &[0, 1, 15], &ways, |rng| {
        let node = rng.node();
        let need = 4 + 8 * node.store.held().len() + 26 * node.table().len();
        let lent = match rng.below(8) {
            0 => need - 1,
            1 => rng.below(need),
            2 => need + rng.below(30),
            3 => IMAGE_MOST,
            _ => need,
        };
        let case = write_image_case(&node, lent, &mut noise(rng));
        let written = case.number == 0;
        case.on("exactly enough", written && lent == need)
    });
    expect_wrong_sums(&seen);
}

#[test]
fn tells_lengths_of_images() {
    run(6_000, &[0, 14], &["something behind it"], |rng| {
        let mut bytes = rng.image();
        let image = bytes.len();
        for _ in 0..rng.pick(&[0, 0, 0, 1, 2]) {
            rng.damage(&mut bytes);
        }
        for _ in 0..rng.pick(&[0, 0, 1, 5, 100]) {
            bytes.push(rng.next() as u8);
        }
        let lent = past(rng, &mut bytes);
        let case = image_length_case(bytes, lent, &mut noise(rng));
        let told = case.number == 0;
        case.on("something behind it", told && lent > image)
    });
}
