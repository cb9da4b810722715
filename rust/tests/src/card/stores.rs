//! Requests on a store or a claim.

use super::*;

pub fn enter_case(store: RawStore, key: u64, noise: Noise) -> Case {
    let mut given = Card::noise(RIGHT, 0, noise);
    given.words[FIRST] = key;
    given.put_store(LEFT, &store);
    let sums = sums::ways(&store);
    case(Call::Enter, given, |card| {
        let entered = enter(store, key);
        card.answer(entered.number, 0);
        card.put_store(LEFT, &entered.store);
        entered.number
    })
    .on_sums(sums)
}

pub fn make_case(store: &RawStore, first: usize, last: usize, noise: Noise) -> Case {
    let mut given = Card::noise(RIGHT, 0, noise);
    given.words[FIRST] = first as u64;
    given.words[SECOND] = last as u64;
    given.put_store(LEFT, store);
    case(Call::Make, given, |card| {
        let made = make(store, first, last);
        card.answer(made.number, 0);
        card.put_claim(CLAIMS, &made.claim);
        made.number
    })
    .on_sums(sums::ways(store))
}

pub fn reply_case(store: RawStore, claim: Claim, noise: Noise) -> Case {
    let mut given = Card::noise(RIGHT, 0, noise);
    given.put_claim(CLAIMS, &claim);
    given.put_store(LEFT, &store);
    let middle = middle::learn(&mut store.held().to_vec(), &claim);
    let sums = sums::ways(&store);
    let mut kind = None;
    case(Call::Reply, given, |card| {
        let replied = reply(store, claim);
        let (_, [one, two]) = replied.claims();
        kind = replied.reply;
        card.answer(
            replied.number,
            match replied.reply {
                None | Some(Reply::Match) => 0,
                Some(Reply::Ask(_)) => 1,
                Some(Reply::One(_)) => 2,
                Some(Reply::Two(..)) => 3,
            },
        );
        card.put_claim(CLAIMS + 4, &one);
        card.put_claim(CLAIMS + 8, &two);
        card.put_store(LEFT, &replied.store);
        replied.number
    })
    .on("match", kind == Some(Reply::Match))
    .on("ask", matches!(kind, Some(Reply::Ask(_))))
    .on("one", matches!(kind, Some(Reply::One(_))))
    .on("two", matches!(kind, Some(Reply::Two(..))))
    .on_hearing(middle)
    .on_sums(sums)
}

pub fn judge_case(claim: Claim, noise: Noise) -> Case {
    let mut given = Card::noise(LEFT, 0, noise);
    given.put_claim(CLAIMS, &claim);
    case(Call::Judge, given, |card| {
        let number = questions::of_claim(&claim).err().unwrap_or(0);
        card.answer(number, 0);
        number
    })
}

pub fn empty_case(noise: Noise) -> Case {
    let given = Card::noise(RIGHT, 0, noise);
    case(Call::Empty, given, |card| {
        card.answer(0, 0);
        card.put_store(LEFT, &RawStore::empty());
        0
    })
}
