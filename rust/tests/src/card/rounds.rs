//! Requests for rounds.

use super::*;

/// The records that a round can fill: two for each key of the greatest union.
pub const RECORDS: usize = 2 * LIMIT;

/// Words behind those that a round is lent.
const PAST_ROUND: usize = 11;

/// The most words that a request can lend to a round.
pub const MOST_LENT: usize = MOST_WORDS - PAST_BOTH - PAST_ROUND;

// A request has room for every record that a round can need, and for more.
const _: () = assert!(RECORD * RECORDS < MOST_LENT);

/// A claim was matched in a round though its sender held other keys.
pub const FALSE_MATCH: &str = "a false match";

/// As a round on deliveries writes them to flat words, five to a record.
pub fn round_case(left: RawStore, right: RawStore, lent: usize, noise: Noise) -> Case {
    let mut given = Card::noise(PAST_BOTH + lent + PAST_ROUND, 0, noise);
    given.words[SECOND] = lent as u64;
    given.put_store(LEFT, &left);
    given.put_store(RIGHT, &right);
    let mut keys = [&left, &right].map(|store| store.held().to_vec());
    let sums = sums::ways_of_round([&left, &right]);
    let mut threes = Vec::new();
    let mut told = (0, 0, false);
    let case = case(Call::Round, given, |card| {
        let mut records = vec![Delivery::default(); lent / RECORD];
        let (met, false_matches) = round_watched(left, right, &mut records);
        let words = card.words[PAST_BOTH..PAST_BOTH + lent].chunks_exact_mut(RECORD);
        for (record, delivery) in words.zip(&records[..met.deliveries]) {
            record[0] = u64::from(delivery.sender);
            record[1..].copy_from_slice(&words_of(&delivery.claim));
        }
        if met.number == 0 {
            threes = middle::ways_of_round(&mut keys, &records[..met.deliveries]);
            let left = [met.left.held(), met.right.held()];
            assert_eq!(keys, left, "a round adds what its deliveries tell");
        }
        told = (met.deliveries, false_matches.len(), met.left == met.right);
        card.answer(met.number, met.deliveries);
        card.put_store(LEFT, &met.left);
        card.put_store(RIGHT, &met.right);
        met.number
    });
    let (deliveries, false_matches, met) = told;
    let run = case.number == 0;
    case.on("no delivery", run && deliveries == 0)
        .on("over 100 deliveries", run && deliveries > 100)
        .on(FALSE_MATCH, run && false_matches > 0)
        .on("met", run && met)
        .on("not met yet", run && !met)
        .on_all(threes)
        .on_sums(sums)
}

/// A round over records of zeros, as many as a round can fill, and the one at
/// the place that `at` draws, which is told the number of deliveries.
pub fn record_case(
    left: RawStore,
    right: RawStore,
    at: impl FnOnce(usize) -> usize,
    noise: Noise,
) -> Case {
    let mut given = Card::noise(PAST_BOTH, 0, noise);
    given.put_store(LEFT, &left);
    given.put_store(RIGHT, &right);
    let sums = sums::ways_of_round([&left, &right]);
    let mut records = vec![Delivery::default(); RECORDS];
    let met = round(left, right, &mut records);
    let deliveries = met.deliveries;
    let at = at(deliveries);
    given.words[FIRST] = at as u64;
    let case = case(Call::RoundRecord, given, |card| {
        let record = records.get(at).copied().unwrap_or_default();
        card.answer(met.number, deliveries);
        card.put_store(LEFT, &met.left);
        card.put_store(RIGHT, &met.right);
        card.put_claim(CLAIMS, &record.claim);
        card.words[SENDER] = u64::from(record.sender);
        met.number
    });
    let run = case.number == 0;
    let many = deliveries > 100;
    let last = deliveries.saturating_sub(1);
    case.on("the first of many", many && at == 0)
        .on("one of many", many && 0 < at && at < last)
        .on("the last of many", many && at == last)
        .on("just past the deliveries", run && at == deliveries)
        .on("past the records", run && at >= RECORDS)
        .on_sums(sums)
}
