//! The program `rehearse` beside the second one: the same standard output,
//! byte by byte, for two images of any content.

mod rehearse;

use rehearse::{compare, number_of, program};
use second::{Claim, IMAGE_MOST, REHEARSAL_RECORDS, RawStore, questions, read_image};
use tests::cases::{Seen, for_seeds, one_seed};
use tests::draw::{Rng, image_of};
use tests::left_out::{self, ALL, BROKEN, FIRST, LAST, SOME};
use tests::middle::three;

const LIMIT: usize = RawStore::LIMIT;

/// How often each number and each way must be seen.
const OFTEN: usize = 40;

/// Document 01's example, in full.
#[test]
fn prints_the_example() {
    let mut input = image_of(&[0, 1, 10], &[]);
    input.extend(image_of(&[0, 5, 6, 10], &[]));
    let lines = "L 0 10 11 3\nR 5 6 3 2\nR 0 10 9 4\nL 1 6 2 3\nleft 5 right 5 claims 4\n";
    assert_eq!(compare(&program(), &input), lines);
}

/// No input, inputs cut at each byte of two small images, and long ones.
#[test]
fn prints_refusals_of_cut_inputs() {
    let program = program();
    let mut input = image_of(&[3, 9], &[]);
    input.extend(image_of(&[u64::MAX], &[]));
    for end in 0..=input.len() {
        compare(&program, &input[..end]);
    }
    let both = 2 * IMAGE_MOST;
    for more in [1, 2, 4, IMAGE_MOST, both, both + 1, 100_000, 300_000] {
        let mut long = input.clone();
        long.resize(input.len() + more, 0);
        assert_eq!(compare(&program, &long), "refused 14\n");
    }
}

/// As many keys as there are records for and as many as fit, half of them on
/// each side, and one more.
#[test]
fn prints_refusals_of_unions() {
    let program = program();
    for most in [REHEARSAL_RECORDS / 2, LIMIT] {
        for union in [most, most + 1] {
            let keys: Vec<u64> = (0..union as u64).collect();
            let (lower, upper) = keys.split_at(union / 2);
            let input = [image_of(lower, &[]), image_of(upper, &[])].concat();
            let lines = compare(&program, &input);
            match number_of(union) {
                0 => assert!(lines.starts_with("L 0 ")),
                number => assert_eq!(lines, format!("refused {number}\n")),
            }
        }
    }
}

/// The numbers of rehearsals: 9 among them where more keys fit than there are
/// records for.
fn numbers() -> Vec<u8> {
    let too_few = (number_of(LIMIT) == 9).then_some(9);
    [0, 1, 8, 14].into_iter().chain(too_few).collect()
}

#[test]
fn prints_what_the_second_program_prints() {
    let program = program();
    let mut seen = Seen::default();
    for_seeds(1_500, |_, rng| {
        let images = images(rng);
        let lines = compare(&program, &images.concat());
        let number = match lines.strip_prefix("refused ") {
            Some(number) => number.trim_end().parse().expect("a number"),
            None => {
                let over = lines.lines().count() > 100;
                seen.way(if over {
                    "over 100 lines"
                } else {
                    "a few lines"
                });
                0
            }
        };
        seen.number(number);
        let [left, right] = images.map(|image| read_image(&image));
        if (left.number, right.number) == (0, 0) {
            let [left, right] = [&left, &right].map(|read| read.node.store.held());
            assert_eq!(number, number_of(questions::union_count(left, right)));
        }
    });
    if !one_seed() {
        seen.expect(&numbers(), &["over 100 lines", "a few lines"], OFTEN);
    }
}

/// The keys of two images. Of those with too many for the records most are cut,
/// to half as many keys as there are records for.
fn keys_of_images(rng: &mut Rng) -> [Vec<u64>; 2] {
    let (mut left, mut right) = rng.pair();
    if rng.one_in(10) {
        right = rng.nearly_full().0;
    }
    if number_of(questions::union_count(&left, &right)) == 9 && !rng.one_in(4) {
        left.truncate(REHEARSAL_RECORDS / 4);
        right.truncate(REHEARSAL_RECORDS / 4);
    }
    [left, right]
}

/// Two images: in order, bent or damaged, the first or the second or both.
fn images(rng: &mut Rng) -> [Vec<u8>; 2] {
    let mut images = keys_of_images(rng).map(|keys| {
        let mut node = rng.node_of(&keys);
        if rng.one_in(12) {
            rng.bend_node(&mut node);
        }
        image_of(node.store.held(), node.table())
    });
    if rng.one_in(6) {
        let which = rng.below(2);
        rng.damage(&mut images[which]);
    }
    images
}

/// {1, 16} with a claim pending that no store could make (document 02, slip
/// 2): the first image is as long as its counts say, that claim with it.
#[test]
fn prints_rounds_of_images_with_a_claim_left_out() {
    let program = program();
    let pending = [Claim::new(1, 16, 17, 2), three(1, 20, 16)];
    let image = image_of(&[1, 16], &pending);
    let lines = "L 1 16 17 2\nR 1 16 17 2\nleft 2 right 2 claims 2\n";
    let empty = image_of(&[], &[]);
    assert_eq!(compare(&program, &[&image[..], &image].concat()), lines);
    assert_eq!(compare(&program, &[&image[..], &empty].concat()), lines);
    let lines = "R 1 16 17 2\nleft 2 right 2 claims 1\n";
    assert_eq!(compare(&program, &[&empty[..], &image].concat()), lines);
    // Out of order with it, and an end of it not held.
    let swapped = image_of(&[1, 16], &[pending[1], pending[0]]);
    for broken in [swapped, image_of(&[1, 15], &pending[1..])] {
        for input in [[&broken[..], &empty], [&image, &broken]] {
            assert_eq!(compare(&program, &input.concat()), "refused 1\n");
        }
    }
}

/// A saved image, perhaps broken or damaged since.
fn saved_image(rng: &mut Rng, keys: &[u64]) -> Vec<u8> {
    let (mut keys, mut pending) = (keys.to_vec(), rng.saved_table(keys));
    if rng.one_in(3) {
        rng.break_saved(&mut keys, &mut pending);
    }
    let mut image = image_of(&keys, &pending);
    if rng.one_in(8) {
        rng.damage(&mut image);
    }
    image
}

/// Two images saved before 16 was asked, the first or the second or both of
/// which have claims to leave out: what is printed is what is printed of two
/// images that never had them.
#[test]
fn prints_rounds_of_saved_images() {
    let program = program();
    let mut seen = [Seen::default(), Seen::default()];
    for_seeds(1_200, |_, rng| {
        let (left, right) = rng.pair();
        let images = [left, right].map(|keys| saved_image(rng, &keys));
        let numbers = [0, 1].map(|at| read_image(&images[at]).number);
        for at in [0, 1] {
            seen[at].number(numbers[at]);
            let ways = left_out::ways_of_image(&images[at], numbers[at]);
            seen[at].all(ways);
        }
        let lines = compare(&program, &images.concat());
        if numbers == [0, 0] {
            let rest = images.map(|image| left_out::rest_of(&image));
            let lines_of_rest = compare(&program, &rest.concat());
            assert_eq!(lines, lines_of_rest, "only stores take part");
        }
    });
    if !one_seed() {
        for seen in seen {
            seen.expect(&[0, 1, 14], &[SOME, ALL, FIRST, LAST], OFTEN);
            seen.expect_ways(&BROKEN, OFTEN / 4);
        }
    }
}
