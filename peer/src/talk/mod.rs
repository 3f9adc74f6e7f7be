//! Random talks: a reader who knows the tag's secrets and is not always careful.

mod acts;
mod authenticate;
mod close;
mod compose;
mod damage;
mod files;
mod iso;
mod strings;
mod tally;
pub mod taps;

pub use tally::Tally;

use crate::beside::Beside;
use crate::log::{Exchange, Log};
use crate::rng::Rng;
use crate::tag::{Explained, Tag, Uid, LAST_CMD_CTR};

/// A talk of more exchanges than this begins with a session that is worn out: its CmdCtr
/// is driven to its end.
const WORN_FROM: usize = LAST_CMD_CTR as usize + 64;

/// A talk as it goes on.
struct Talk {
    rng: Rng,
    tag: Tag,
    /// Of a hundred commands, how many are damaged on the way.
    harm: usize,
    /// Of a hundred commands, how many are put together wrongly.
    slips: usize,
    /// The CmdCtr up to which the first session is worn; none after the first refusal.
    wear: Option<u16>,
}

/// One talk from a fresh tag, and what stands beside it; seed and index fix it.
pub fn talk(seed: u64, index: u64, exchanges: usize, tally: &mut Tally) -> Option<(Log, Beside)> {
    let mut rng = Rng::new(seed ^ Rng::new(index).draw());
    let mut uid: Uid = rng.array();
    uid[0] = 0x04;
    let mut talk = Talk {
        tag: Tag::fresh(&uid)?,
        harm: rng.pick(&[6, 16, 26, 40]),
        slips: rng.pick(&[10, 25, 40, 55]),
        wear: (exchanges > WORN_FROM).then(|| LAST_CMD_CTR - rng.below(4) as u16),
        rng,
    };
    let mut beside = Beside::default();
    let exchanges = (0..exchanges).map(|_| talk.exchange(tally, &mut beside));
    let exchanges = exchanges.collect();
    Some((Log { uid, exchanges }, beside))
}

impl Talk {
    /// A rate of errors; in session the reader takes more care, so that sessions live.
    fn in_care(&self, percent: usize, care: usize) -> usize {
        match self.tag.session() {
            Some(_) => percent.div_ceil(care),
            None => percent,
        }
    }

    fn exchange(&mut self, tally: &mut Tally, beside: &mut Beside) -> Exchange {
        let mut command = self.compose();
        let harm = self.in_care(self.harm, 6);
        if self.wear.is_none() && self.rng.chance(harm) {
            damage::damage(&mut self.rng, &mut command);
        }
        let random = self.rng.array();
        let before = tally::Before::of(&self.tag);
        let explained = self.tag.explained(&command, &random);
        tally.count_explained(&explained);
        beside.push(&explained);
        let Explained { reply, .. } = explained;
        if !tally.count(&before, &self.tag, &command, &reply) {
            self.wear = None;
        }
        Exchange {
            command,
            reply,
            random,
        }
    }
}
