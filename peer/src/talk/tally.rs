//! What happened in the talks, counted.

use std::collections::BTreeMap;
use std::fmt;

use crate::tag::{Explained, Tag};

/// How often each thing happened.
#[derive(Default)]
pub struct Tally {
    exchanges: usize,
    accepted: usize,
    in_session: usize,
    in_session_accepted: usize,
    sessions: usize,
    mirrored_reads: usize,
    taps: usize,
    settings_changed: usize,
    keys_changed: usize,
    blocks: usize,
    statuses: BTreeMap<String, usize>,
    grants: BTreeMap<String, usize>,
}

/// What the tag was like when the command came.
pub(super) struct Before {
    in_session: bool,
    counter: usize,
}

impl Before {
    pub(super) fn of(tag: &Tag) -> Before {
        Before {
            in_session: tag.session().is_some(),
            counter: tag.counter(),
        }
    }
}

/// The last two bytes of a reply.
fn status(reply: &[u8]) -> u16 {
    match reply {
        [.., high, low] => u16::from_be_bytes([*high, *low]),
        _ => 0,
    }
}

/// A status word's name in the table; those with 6C count together.
fn name(status: u16) -> String {
    match status >> 8 {
        0x6c => "6Cxx".to_string(),
        _ => format!("{status:04X}"),
    }
}

impl Tally {
    /// Counts an exchange and tells whether the command was accepted.
    pub(super) fn count(
        &mut self,
        before: &Before,
        after: &Tag,
        command: &[u8],
        reply: &[u8],
    ) -> bool {
        let status = status(reply);
        let accepted = matches!(status, 0x9000 | 0x9100 | 0x91af);
        let done = |code| accepted && command.starts_with(&[0x90, code]);
        let mirrored = after.tap().is_some();
        let add = |sum: &mut usize, happened: bool| *sum += usize::from(happened);
        add(&mut self.exchanges, true);
        add(&mut self.accepted, accepted);
        add(&mut self.in_session, before.in_session);
        add(&mut self.in_session_accepted, before.in_session && accepted);
        add(&mut self.sessions, done(0xaf));
        add(&mut self.mirrored_reads, mirrored);
        add(
            &mut self.taps,
            mirrored && after.counter() != before.counter,
        );
        add(&mut self.settings_changed, done(0x5f));
        add(&mut self.keys_changed, done(0xc4));
        *self.statuses.entry(name(status)).or_default() += 1;
        accepted
    }

    /// Counts why an exchange was granted, and its blocks.
    pub(super) fn count_explained(&mut self, explained: &Explained) {
        *self.grants.entry(explained.grant.to_string()).or_default() += 1;
        self.blocks += explained.blocks;
    }
}

impl fmt::Display for Tally {
    fn fmt(&self, out: &mut fmt::Formatter) -> fmt::Result {
        let rows = [
            ("exchanges", self.exchanges),
            ("accepted", self.accepted),
            ("in session", self.in_session),
            ("in session, accepted", self.in_session_accepted),
            ("sessions opened", self.sessions),
            ("mirrored reads", self.mirrored_reads),
            ("taps started", self.taps),
            ("settings changed", self.settings_changed),
            ("keys changed", self.keys_changed),
            ("blocks", self.blocks),
        ];
        for (what, sum) in rows {
            writeln!(out, "{what:<22}{sum:>9}")?;
        }
        for (what, sum) in self.statuses.iter().chain(&self.grants) {
            writeln!(out, "{what:<22}{sum:>9}")?;
        }
        Ok(())
    }
}
