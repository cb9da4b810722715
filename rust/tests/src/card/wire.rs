//! Requests on frames and images.

use super::*;

/// The first `lent` of some bytes as a frame.
pub fn read_frame_case(bytes: Vec<u8>, lent: usize, noise: Noise) -> Case {
    let mut given = Card::noise(LEFT, 0, noise);
    given.words[SECOND] = lent as u64;
    given.bytes = bytes;
    let case = case(Call::ReadFrame, given, |card| {
        let read = read_frame(&card.bytes[..lent]);
        card.answer(read.number, read.count);
        for (at, claim) in read.claims.iter().enumerate() {
            card.put_claim(CLAIMS + 4 * at, claim);
        }
        read.number
    });
    let by_16 = case.number == 13 && {
        let claims = claims_in(&case.given.bytes[4..lent]);
        left_out::is_frame_by_16_alone(&claims)
    };
    case.on(left_out::FRAME, by_16)
}

/// The first n of four claims to the first `lent` of a buffer.
pub fn write_frame_case(four: [Claim; 4], n: u64, lent: usize, noise: Noise) -> Case {
    let mut given = Card::noise(LEFT, lent + 13, noise);
    given.words[FIRST] = n;
    given.words[SECOND] = lent as u64;
    for (at, claim) in four.iter().enumerate() {
        given.put_claim(CLAIMS + 4 * at, claim);
    }
    // Of more than four claims no other is asked but question 12.
    let mut claims = four.to_vec();
    claims.resize(n.min(5) as usize, Claim::ZERO);
    let case = case(Call::WriteFrame, given, |card| {
        let written = write_frame(&claims, &mut card.bytes[..lent]);
        card.answer(written.number, written.length);
        written.number
    });
    let by_16 = case.number == 13 && left_out::is_frame_by_16_alone(&claims);
    case.on(left_out::FRAME, by_16)
}

/// The first `lent` of some bytes as an image.
pub fn read_image_case(bytes: Vec<u8>, lent: usize, noise: Noise) -> Case {
    let mut given = Card::noise(PAST_NODE, 0, noise);
    given.words[SECOND] = lent as u64;
    given.bytes = bytes;
    let mut case = case(Call::ReadImage, given, |card| {
        let read = read_image(&card.bytes[..lent]);
        card.answer(read.number, 0);
        card.put_node(&read.node);
        read.number
    });
    let ways = left_out::ways_of_image(&case.given.bytes[..lent], case.number);
    case.ways.extend(ways);
    case
}

pub fn write_image_case(node: &RawNode, lent: usize, noise: Noise) -> Case {
    let mut given = Card::noise(PAST_NODE, lent + 17, noise);
    given.words[SECOND] = lent as u64;
    given.put_node(node);
    case(Call::WriteImage, given, |card| {
        let written = write_image(node, &mut card.bytes[..lent]);
        card.answer(written.number, written.length);
        written.number
    })
    .on_node(left_out::is_node_by_16_alone(node))
    .on_sums(sums::ways_of_node(node))
}

pub fn image_length_case(bytes: Vec<u8>, lent: usize, noise: Noise) -> Case {
    let mut given = Card::noise(LEFT, 0, noise);
    given.words[SECOND] = lent as u64;
    given.bytes = bytes;
    case(Call::ImageLength, given, |card| {
        let told = image_length(&card.bytes[..lent]);
        card.answer(told.number, told.length);
        told.number
    })
}
