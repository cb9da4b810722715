//! The turns that pending claims get in a beat, which replies to eight of them
//! (document 02, slip 8), read off the slip's sentences once more; and tables
//! drawn so that all ways are gone.

use second::*;

use crate::draw::{Rng, claim_of};
use crate::middle::{is_faulty, three};

/// "In table order, a match leaves the table and doesn't count": before any
/// reply, with some made and some left, and with none left.
pub const MATCH_BEFORE: &str = "a match before any reply";
pub const MATCH_AMONG: &str = "a match among the replies";
pub const MATCH_AFTER: &str = "a match after the eighth reply";

/// The replies.
pub const ASKED: &str = "asked about";
pub const ONE: &str = "helped with one claim";
pub const TWO: &str = "helped with two claims";

/// "each remaining claim that doesn't match stays pending and sends nothing"
pub const ASK_WAITS: &str = "one to ask about waits";
pub const HELP_WAITS: &str = "one to help with waits";

/// A claim of three beside just its ends uses up one of eight replies.
pub const THREE_COUNTS: &str = "three asked about while others wait";

pub const JUST_EIGHT: &str = "eight replies and none waits";
pub const JUST_NINE: &str = "eight replies and one waits";
pub const MOST: &str = "17 claims written";

/// All of them.
pub const WAYS: [&str; 12] = [
    MATCH_BEFORE,
    MATCH_AMONG,
    MATCH_AFTER,
    ASKED,
    ONE,
    TWO,
    ASK_WAITS,
    HELP_WAITS,
    THREE_COUNTS,
    JUST_EIGHT,
    JUST_NINE,
    MOST,
];

/// "the replies to eight pending claims each beat"
pub const REPLIES: usize = 8;
const JUST_TOO_MANY: usize = REPLIES + 1;

/// What a beat asked for its frames while it replied to all 64 claims.
pub const FORMER_FRAMES: usize = 3_486;

/// The answer to a pending claim by the keys as they are, by its kind.
#[derive(Clone, Copy, PartialEq, Eq)]
enum Answer {
    Match,
    Ask,
    One,
    Two,
}

/// Of a claim whose ends are held.
fn answer(held: &[u64], claim: &Claim) -> Answer {
    let span = claim.lo..=claim.hi;
    let own: Vec<u64> = held
        .iter()
        .copied()
        .filter(|key| span.contains(key))
        .collect();
    match own.len() {
        _ if claim_of(&own) == *claim => Answer::Match,
        held if held < usize::from(claim.cnt) => Answer::Ask,
        ..=5 => Answer::One,
        _ => Answer::Two,
    }
}

/// What is claimed by a pending claim, what is answered, and how many were
/// replied to before it, eight or fewer. None of a node that 1 is said of.
fn turns(node: &RawNode) -> Vec<(Claim, Answer, usize)> {
    if questions::of_beat(node, BEAT_PLACES).is_err() {
        return Vec::new();
    }
    let mut replies = 0;
    let turn = |claim: &Claim| {
        let answer = answer(node.store.held(), claim);
        let before = replies;
        replies = REPLIES.min(before + usize::from(answer != Answer::Match));
        (*claim, answer, before)
    };
    node.table().iter().map(turn).collect()
}

/// The pending claims that don't wait: those that match or are replied to.
pub fn served(node: &RawNode) -> Vec<Claim> {
    let mut turns = turns(node);
    turns.retain(|&(_, answer, before)| answer == Answer::Match || before < REPLIES);
    turns.into_iter().map(|(claim, _, _)| claim).collect()
}

fn way(answer: Answer, before: usize) -> &'static str {
    match (answer, before) {
        (Answer::Match, 0) => MATCH_BEFORE,
        (Answer::Match, REPLIES) => MATCH_AFTER,
        (Answer::Match, _) => MATCH_AMONG,
        (Answer::Ask, REPLIES) => ASK_WAITS,
        (_, REPLIES) => HELP_WAITS,
        (Answer::Ask, _) => ASKED,
        (Answer::One, _) => ONE,
        (Answer::Two, _) => TWO,
    }
}

/// The ways that a beat of a node in order goes.
pub fn ways_of_beat(node: &RawNode) -> Vec<&'static str> {
    let turns = turns(node);
    let mut ways: Vec<&str> = turns.iter().map(|turn| way(turn.1, turn.2)).collect();
    let unmatched = turns.iter().filter(|turn| turn.1 != Answer::Match).count();
    match unmatched {
        REPLIES => ways.push(JUST_EIGHT),
        JUST_TOO_MANY => ways.push(JUST_NINE),
        _ => {}
    }
    let three_asked = |&(claim, answer, before): &(Claim, Answer, usize)| {
        claim.cnt == 3 && answer == Answer::Ask && before < REPLIES
    };
    if unmatched > REPLIES && turns.iter().any(three_asked) {
        ways.push(THREE_COUNTS);
    }
    ways
}

impl Rng {
    /// A node in order whose table has claims that match, are asked about and
    /// are helped with, some kinds seldom or never: as many as a table has, or
    /// few more or fewer than are replied to.
    pub fn node_to_serve(&mut self) -> RawNode {
        let density = self.density();
        let count = 2 + self.below(100);
        let keys = self.keys_of(count, density);
        let weights = [0; 3].map(|_| self.pick(&[0, 1, 1, 8]));
        // With six keys and more, each is helped with two claims.
        let least = self.pick(&[1, 1, 6]);
        let wanted = match self.below(3) {
            0 => REPLIES - 2 + self.below(7),
            1 => self.below(PENDING + 1),
            _ => PENDING,
        };
        let pending = self.table_of(&keys, wanted, |rng, keys| {
            rng.claim_to_serve(keys, least, weights)
        });
        RawNode::of(RawStore::of(&keys), &pending)
    }

    /// A claim that matches, is asked about or is helped with by these keys, as
    /// often as the weights say, from a span of at least so many, if there are;
    /// where a span allows no such claim, its own.
    fn claim_to_serve(&mut self, keys: &[u64], least: usize, weights: [usize; 3]) -> Claim {
        let [matched, asked, helped] = weights;
        let first = self.below((keys.len() + 1).saturating_sub(least).max(1));
        let most = self.pick(&[3, 8, keys.len()]);
        let end = (first + least + self.below(most)).min(keys.len());
        let own = claim_of(&keys[first..end]);
        let width = (own.hi - own.lo).saturating_add(1).min(u64::from(u16::MAX));
        let room = (width as usize).min(RawStore::LIMIT);
        let held = usize::from(own.cnt);
        let drawn = self.below((matched + asked + helped).max(1));
        let cnt = match drawn {
            _ if drawn < matched => return own,
            _ if drawn < matched + asked => held + 1 + self.below(4),
            _ => held - self.below(held.max(2) - 1),
        };
        if held < 2 || cnt < 2 || cnt > room {
            return own;
        }
        self.claim_between(own.lo, own.hi, cnt as u16)
    }

    /// A claim from lo to hi that passes 2 to 5 and 16, of so many keys.
    fn claim_between(&mut self, lo: u64, hi: u64, cnt: u16) -> Claim {
        let mut claim = Claim::new(lo, hi, self.next(), cnt);
        if cnt == 2 {
            claim.sum = lo ^ hi;
        }
        if is_faulty(&claim) {
            claim = three(lo, self.key_between(lo, hi), hi);
        }
        claim
    }
}
