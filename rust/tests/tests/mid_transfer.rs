//! What eight replies a beat (document 02, slip 8) can leave undone, for whoever
//! plans the radio: two kiosks in steady contact that never agree by beats.
//!
//! Claims that are asked about stay pending, and count. Where the first eight in
//! table order that don't match are asked about, they use up every beat, and if
//! nobody in reach has their keys, those behind them are never replied to. That
//! happens when a third kiosk leaves in the middle of a transfer. Here it does,
//! from fixed seeds: many pairs fall into a cycle, and what stands in the tables
//! tells why. Each of them would agree if all pending claims were replied to, or if
//! both began anew with just their keys (one of them is seldom enough), and rounds
//! bring each together; but rounds are of stores, so the eight stay.

use std::collections::{BTreeMap, BTreeSet, HashMap};

use minutefrost::{BEAT_FRAMES, IMAGE_MOST, beat, frames, keys, take_frame};
use second::{Claim, RawStore};
use tests::card::{FALSE_MATCH, round_case};
use tests::cases::{for_seeds, one_seed};
use tests::draw::{Rng, claim_of, claims_in, frame_of, image_of};
use tests::drill::Drill;
use tests::replies::REPLIES;

/// The runs, each from a seed of its own.
const SEEDS: u64 = 240;

/// The keys that all three kiosks have, and those that just one of them has.
const COMMON: usize = 40;
const OWN: [usize; 3] = [40, 40, 120];

/// How often each of the three beats until the third one leaves.
const BEATS: usize = 5;

/// The keys that come to one kiosk after rounds have brought both together.
const NEW: usize = 10;

/// A kiosk is its image.
#[derive(Clone, PartialEq, Eq, Hash)]
struct Kiosk(Vec<u8>);

/// The first and the second kiosk, which stay in contact.
type Pair = [Kiosk; 2];

/// How a kiosk beats; what it sends are frames end to end.
type Beat = fn(&mut Kiosk) -> Vec<u8>;

impl Kiosk {
    fn of(keys: &BTreeSet<u64>, pending: &[Claim]) -> Kiosk {
        let keys: Vec<u64> = keys.iter().copied().collect();
        Kiosk(image_of(&keys, pending))
    }

    fn keys(&self) -> BTreeSet<u64> {
        keys(&self.0).expect("an image").collect()
    }

    fn pending(&self) -> Vec<Claim> {
        let keys = keys(&self.0).expect("an image").len();
        claims_in(&self.0[2 + 8 * keys + 2..])
    }

    fn hear(&mut self, sent: &[u8]) {
        let mut out = [0; IMAGE_MOST];
        for frame in frames(sent) {
            let length = take_frame(&self.0, frame, &mut out).expect("the frame is taken");
            self.0 = out[..length].to_vec();
        }
    }

    /// A beat by the rule.
    fn beat(&mut self) -> Vec<u8> {
        let (mut out, mut sent) = ([0; IMAGE_MOST], [0; BEAT_FRAMES]);
        let beaten = beat(&self.0, &mut out, &mut sent).expect("an image");
        self.0 = out[..beaten.image].to_vec();
        sent[..beaten.frames].to_vec()
    }

    /// A beat that replies to all pending claims, for comparison. A beat adds no
    /// key, so this is what the same store does in one beat by the rule for each
    /// eight of them, one after the other: each part of the table is replied to
    /// whole, what the parts keep is in table order again, and the whole claim,
    /// which is the same in each beat, is sent once.
    fn beat_for_all(&mut self) -> Vec<u8> {
        let (keys, pending) = (self.keys(), self.pending());
        let mut kept = Vec::new();
        let mut sent = claims_sent(&Kiosk::of(&keys, &[]).beat());
        let whole = sent.len();
        for part in pending.chunks(REPLIES) {
            let mut kiosk = Kiosk::of(&keys, part);
            sent.extend(&claims_sent(&kiosk.beat())[whole..]);
            kept.extend(kiosk.pending());
        }
        *self = Kiosk::of(&keys, &kept);
        sent.chunks(4).flat_map(frame_of).collect()
    }

    /// Its own claim of a span, both ends of which it holds.
    fn own(&self, lo: u64, hi: u64) -> Claim {
        let span: Vec<u64> = self.keys().range(lo..=hi).copied().collect();
        claim_of(&span)
    }

    /// The pending claims that don't match, in table order.
    fn unmatched(&self) -> Vec<Claim> {
        let mut pending = self.pending();
        pending.retain(|claim| self.own(claim.lo, claim.hi) != *claim);
        pending
    }
}

/// The claims in frames that stand end to end.
fn claims_sent(sent: &[u8]) -> Vec<Claim> {
    let claims = frames(sent).flat_map(|frame| claims_in(&frame[4..]));
    claims.collect()
}

/// The pair as the third kiosk leaves it: each of the three has beaten a few
/// times, and both others heard every frame.
fn left_alone(rng: &mut Rng, beat: Beat) -> Pair {
    let common: Vec<u64> = (0..COMMON).map(|_| rng.next()).collect();
    let mut kiosks = OWN.map(|own| {
        let own = (0..own).map(|_| rng.next());
        Kiosk::of(&common.iter().copied().chain(own).collect(), &[])
    });
    for at in (0..3).cycle().take(3 * BEATS) {
        let sent = beat(&mut kiosks[at]);
        let others = (0..3).filter(|&other| other != at);
        others.for_each(|other| kiosks[other].hear(&sent));
    }
    let [first, second, _] = kiosks;
    [first, second]
}

/// Lets the pair beat in turns, each hearing all that the other one sends, until
/// both hold the same keys. Returns the turns of the cycle that they fell into
/// instead: a turn depends on the two images alone, so a pair of them that comes
/// a second time comes for ever.
fn cycle(pair: &mut Pair, beat: Beat) -> Option<usize> {
    let mut seen = HashMap::new();
    while pair[0].keys() != pair[1].keys() {
        let turns = seen.len();
        if let Some(before) = seen.insert(pair.clone(), turns) {
            return Some(turns - before);
        }
        for at in [0, 1] {
            let sent = beat(&mut pair[at]);
            pair[1 - at].hear(&sent);
        }
    }
    None
}

/// The first nine claims of a kiosk that don't match, if nobody in reach can
/// answer the first eight: each counts more keys than both kiosks together hold
/// from its lo to its hi, so that it is asked about whatever one learns of the
/// other.
fn eight_and_next(kiosk: &Kiosk, union: &BTreeSet<u64>) -> Option<[Claim; REPLIES + 1]> {
    let nine = *kiosk.unmatched().first_chunk()?;
    let in_reach = |claim: &Claim| union.range(claim.lo..=claim.hi).count();
    let unanswered = |claim: &Claim| usize::from(claim.cnt) > in_reach(claim);
    nine[..REPLIES].iter().all(unanswered).then_some(nine)
}

/// Whether a beat was used up by the first eight of nine claims: the nine stand
/// first of those that don't match, before it and after; none that doesn't match
/// left; and sent were the whole claim and what asks about the eight, nothing else.
fn is_used_up(before: &Kiosk, after: &Kiosk, sent: &[u8], nine: &[Claim]) -> bool {
    let asks = nine[..REPLIES].iter();
    let mut claims = vec![before.own(0, u64::MAX)];
    claims.extend(asks.map(|claim| before.own(claim.lo, claim.hi)));
    let unmatched = before.unmatched();
    unmatched.starts_with(nine) && after.pending() == unmatched && claims_sent(sent) == claims
}

/// How many of a pair in a cycle of so many turns are held up: the same eight
/// claims, which nobody in reach can answer, use up each beat of such a kiosk, and
/// the next one gets no reply in the whole cycle.
fn held_up(pair: &Pair, turns: usize) -> usize {
    let union = &pair[0].keys() | &pair[1].keys();
    let mut nines = [0, 1].map(|at| eight_and_next(&pair[at], &union));
    let mut now = pair.clone();
    for at in [0, 1].into_iter().cycle().take(2 * turns) {
        let before = now[at].clone();
        let sent = now[at].beat();
        nines[at] = nines[at].filter(|nine| is_used_up(&before, &now[at], &sent, nine));
        now[1 - at].hear(&sent);
    }
    assert!(now == *pair, "a cycle ends where it began");
    nines.iter().flatten().count()
}

/// The rounds that make the stores of the pair equal, by the proved program and
/// the second one. As is proved, they end with the keys of both, after at most
/// as many rounds as keys differ.
fn rounds(drill: &mut Drill, pair: &Pair) -> usize {
    let [left, right] = [0, 1].map(|at| pair[at].keys());
    let (union, differ) = (&left | &right, (&left ^ &right).len());
    let mut stores = [left, right].map(|keys| RawStore::of(&Vec::from_iter(keys)));
    let mut rounds = 0;
    while stores[0] != stores[1] {
        let [left, right] = stores;
        // Two records for each key of the union, of five words each.
        let case = round_case(left, right, 5 * 2 * union.len(), &mut || 0);
        let reply = drill.ask(case.call, &case.given);
        assert_eq!(case.differs(&reply), None);
        assert_eq!(reply.number(), 0, "a round was refused");
        assert!(!case.ways.contains(&FALSE_MATCH), "a match was false");
        stores = [reply.left(), reply.right()];
        rounds += 1;
        assert!(rounds <= differ, "{differ} keys differed");
    }
    assert!(stores[0].held().iter().eq(&union), "both hold the union");
    rounds
}

/// Whether a pair that rounds brought together falls into a cycle again when some
/// keys come to the second kiosk: a round is of stores, and leaves their tables.
fn again(pair: &Pair, rng: &mut Rng) -> bool {
    let mut keys = &pair[0].keys() | &pair[1].keys();
    let first = Kiosk::of(&keys, &pair[0].pending());
    keys.extend((0..NEW).map(|_| rng.next()));
    let mut pair = [first, Kiosk::of(&keys, &pair[1].pending())];
    cycle(&mut pair, Kiosk::beat).is_some()
}

/// How many runs agreed by beats; how many fell into a cycle, by its turns, by the
/// kiosks held up and by the rounds needed; how many pairs did so though one of
/// them had begun anew, and how many again after rounds.
#[derive(Debug, Default)]
struct Seen {
    agreed: usize,
    cycles: BTreeMap<usize, usize>,
    held_up: BTreeMap<usize, usize>,
    rounds: BTreeMap<usize, usize>,
    one_anew: usize,
    again: usize,
}

impl Seen {
    /// Looks at a pair in a cycle of so many turns.
    fn cycle(&mut self, drill: &mut Drill, pair: &Pair, turns: usize, rng: &mut Rng) {
        let replied_to_all = cycle(&mut pair.clone(), Kiosk::beat_for_all);
        assert_eq!(replied_to_all, None, "they agree once all are replied to");
        let anew = [0, 1].map(|at| Kiosk::of(&pair[at].keys(), &[]));
        let both_anew = cycle(&mut anew.clone(), Kiosk::beat);
        assert_eq!(both_anew, None, "they agree once both began anew");
        for at in [0, 1] {
            let mut one = pair.clone();
            one[at] = anew[at].clone();
            self.one_anew += usize::from(cycle(&mut one, Kiosk::beat).is_some());
        }
        let held_up = held_up(pair, turns);
        assert!(held_up > 0, "a cycle for another reason");
        *self.cycles.entry(turns).or_default() += 1;
        *self.held_up.entry(held_up).or_default() += 1;
        *self.rounds.entry(rounds(drill, pair)).or_default() += 1;
        self.again += usize::from(again(pair, rng));
    }
}

/// Of pairs that replies to all make agree, each time, many fall into a cycle.
#[test]
fn pairs_that_a_third_kiosk_left_in_the_middle_of_a_transfer() {
    let (mut drill, mut seen) = (Drill::start(), Seen::default());
    for_seeds(SEEDS, |seed, rng| {
        let mut control = left_alone(&mut Rng(seed), Kiosk::beat_for_all);
        let replied_to_all = cycle(&mut control, Kiosk::beat_for_all);
        assert_eq!(replied_to_all, None, "replies to all make them agree");
        let mut pair = left_alone(rng, Kiosk::beat);
        match cycle(&mut pair, Kiosk::beat) {
            Some(turns) => seen.cycle(&mut drill, &pair, turns, rng),
            None => seen.agreed += 1,
        }
    });
    println!("    {seen:?}");
    if !one_seed() {
        let cycles: usize = seen.cycles.values().sum();
        assert!(4 * cycles >= SEEDS as usize, "only {cycles} cycles");
        assert!(seen.agreed > 0 && seen.one_anew > 0 && seen.again > 0);
    }
}

/// A small case by hand. Of eight spans of four keys both kiosks have the ends,
/// which a third one told them before it left. The second has two keys more, above
/// them all: the first learns the greater one by the second's whole claim, and
/// never the other. With seven spans they agree.
#[test]
fn eight_spans_that_nobody_can_fill() {
    for (spans, lacking) in [(7, 0), (8, 1)] {
        let spans = (1..=spans).map(|at| [0, 1, 2, 3].map(|key| 10 * at + key));
        let claims: Vec<Claim> = spans.clone().map(|span| claim_of(&span)).collect();
        let mut keys: BTreeSet<u64> = spans.flat_map(|[lo, _, _, hi]| [lo, hi]).collect();
        let first = Kiosk::of(&keys, &claims);
        keys.extend([101, 102]);
        let mut pair = [first, Kiosk::of(&keys, &claims)];
        let turns = cycle(&mut pair, Kiosk::beat);
        assert_eq!(turns.is_some(), lacking > 0);
        let lacks: Vec<u64> = (&keys - &pair[0].keys()).into_iter().collect();
        assert_eq!(lacks, &[101][..lacking]);
        if let Some(turns) = turns {
            assert_eq!(held_up(&pair, turns), 2);
            assert_eq!(rounds(&mut Drill::start(), &pair), 1);
        }
    }
}
