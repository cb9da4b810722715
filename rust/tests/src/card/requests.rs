//! Requests for calls that document 02 brought.

use super::*;

/// The sheet of a store to the first `lent` of a buffer, which goes on behind
/// them where a request can have more. Nothing but the sheet is written, and it
/// tells the keys held.
pub fn write_sheet_case(store: &RawStore, lent: usize, noise: Noise) -> Case {
    let mut given = Card::noise(RIGHT, MOST_BYTES.min(lent + 19), noise);
    given.words[SECOND] = lent as u64;
    given.put_store(LEFT, store);
    let mut case = case(Call::WriteSheet, given, |card| {
        let written = write_sheet(store, &mut card.bytes[..lent]);
        card.answer(written.number, written.length);
        written.number
    })
    .on_sums(sums::ways(store));
    let (text, rest) = case.expected.bytes.split_at(case.expected.count());
    assert!(case.given.bytes.ends_with(rest), "the rest stays");
    if case.number == 1 {
        case.ways.extend(sheet::way_out_of_order(store));
        let short = lent < sheet::length(store.held().len());
        return case.on(sheet::BEFORE_15, short);
    }
    if case.number == 0 {
        assert_eq!(sheet::keys_on(text).as_deref(), Ok(store.held()));
    }
    case.ways
        .extend(sheet::ways(store.held(), lent, case.number));
    case
}

/// What a new kiosk costs that is told n keys. The call needs no more than the
/// first words; there are some behind them, and bytes, which stay.
pub fn opening_cost_case(n: u64, noise: Noise) -> Case {
    let mut given = Card::noise(LEFT + 7, 5, noise);
    given.words[FIRST] = n;
    let case = case(Call::OpeningCost, given, |card| {
        let cost = opening_cost(n as usize);
        card.answer(cost.number, cost.deliveries);
        cost.number
    });
    let ways = opening::ways(n, case.number);
    Case { ways, ..case }
}
