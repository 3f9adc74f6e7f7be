//! Three workloads with fixed bytes, and how fast they go.

use std::time::{Duration, Instant};

use crate::bytes::unhex;
use crate::command::{Iso, Native};
use crate::log::Exchange;
use crate::messaging::Session;
use crate::reader::{iso, part_two, wrap};
use crate::rng::Rng;
use crate::settings::Mode;
use crate::tag::{Tag, Uid};

const UID: Uid = [0x04, 0x95, 0x8c, 0xaa, 0x5c, 0x5e, 0x80];

/// How many exchanges a round has.
const ROUND: usize = 1000;

/// A workload: bring a fresh tag with this UID through `prepare`, keep a copy, then play
/// `round` from a copy over and over. The replies are the right ones.
pub struct Workload {
    pub name: &'static str,
    pub uid: Uid,
    pub prepare: Vec<Exchange>,
    pub round: Vec<Exchange>,
}

/// Talks to a tag and writes it down.
struct Recorder {
    tag: Tag,
    rng: Rng,
    written: Vec<Exchange>,
}

impl Recorder {
    fn new() -> Option<Recorder> {
        Some(Recorder {
            tag: Tag::fresh(&UID)?,
            rng: Rng::new(424),
            written: Vec::new(),
        })
    }

    /// Sends a command; none where it is refused.
    fn send(&mut self, command: Vec<u8>) -> Option<()> {
        let random = self.rng.array();
        let reply = self.tag.exchange(&command, &random);
        let accepted = matches!(reply[..], [.., 0x90 | 0x91, 0x00] | [.., 0x91, 0xaf]);
        self.written.push(Exchange {
            command,
            reply,
            random,
        });
        accepted.then_some(())
    }

    fn select(&mut self, id: u16) -> Option<()> {
        self.send(iso(Iso::SelectFile, [0, 0x0c], &id.to_be_bytes(), None))
    }

    fn authenticate(&mut self, key: u8) -> Option<()> {
        self.send(wrap(Native::AuthenticateEv2First, &[key, 0]))?;
        let rnd_a = self.rng.array();
        let data = part_two(&self.tag, &rnd_a)?;
        self.send(wrap(Native::PartTwo, &data))
    }

    fn full(&mut self, ins: Native, header: &[u8], data: &[u8]) -> Option<()> {
        let session: &Session = self.tag.session()?;
        let message = session.close_command(Mode::Full, ins, header, data);
        self.send(wrap(ins, &message))
    }

    /// What was written so far is the preparation; the round follows.
    fn finish(
        mut self,
        name: &'static str,
        mut step: impl FnMut(&mut Recorder, usize) -> Option<()>,
    ) -> Option<Workload> {
        let prepare = std::mem::take(&mut self.written);
        for i in 0..ROUND {
            step(&mut self, i)?;
        }
        Some(Workload {
            name,
            uid: UID,
            prepare,
            round: self.written,
        })
    }
}

/// PICCData at 0, ENC from 32 of length 192, MAC at 240 over all before it; SDMMetaRead 2
/// and SDMFileRead 1. ReadData and ISOReadBinary take turns, so each read starts a tap.
fn mirrored_read() -> Option<Workload> {
    let mut recorder = Recorder::new()?;
    recorder.select(0xe110)?;
    recorder.authenticate(0)?;
    let settings = unhex("4000E0D1F121000000000000200000C00000F00000")?;
    recorder.full(Native::ChangeFileSettings, &[2], &settings)?;
    recorder.select(0xe110)?;
    recorder.select(0xe104)?;
    recorder.finish("mirrored read of file 2", |recorder, i| {
        recorder.send(match i % 2 {
            0 => wrap(Native::ReadData, &[2, 0, 0, 0, 0, 0, 0]),
            _ => iso(Iso::ReadBinary, [0, 0], &[], Some(0)),
        })
    })
}

/// File 3 as delivered, its 128 bytes read in session with key 2.
fn full_read() -> Option<Workload> {
    let mut recorder = Recorder::new()?;
    recorder.select(0xe110)?;
    recorder.authenticate(2)?;
    recorder.finish("Full ReadData of 128 bytes", |recorder, _| {
        recorder.full(Native::ReadData, &[3, 0, 0, 0, 0, 0, 0], &[])
    })
}

/// Two settings strings of file 2 in turn, in session with key 0.
fn change_settings() -> Option<Workload> {
    let mut recorder = Recorder::new()?;
    recorder.select(0xe110)?;
    recorder.authenticate(0)?;
    let strings = [
        unhex("4000E0C1F121200000430000430000")?,
        unhex("4000E0D1F121000000000000200000C00000F00000")?,
    ];
    recorder.finish("Full ChangeFileSettings", |recorder, i| {
        recorder.full(Native::ChangeFileSettings, &[2], &strings[i % 2])
    })
}

/// The three workloads. None only if the tag refuses one of its commands.
pub fn workloads() -> Option<[Workload; 3]> {
    Some([mirrored_read()?, full_read()?, change_settings()?])
}

/// The seconds of one round, from a copy of the prepared tag. `call` plays one exchange on the
/// tag under measure.
pub fn seconds<T: Clone>(
    work: &Workload,
    prepared: &T,
    mut call: impl FnMut(&mut T, &Exchange),
) -> f64 {
    let mut tag = prepared.clone();
    let begun = Instant::now();
    work.round
        .iter()
        .for_each(|exchange| call(&mut tag, exchange));
    begun.elapsed().as_secs_f64()
}

/// Calls per second in the fastest of the rounds that two seconds hold: the one that other
/// programs disturbed least.
pub fn rate<T: Clone>(
    work: &Workload,
    prepared: &T,
    mut call: impl FnMut(&mut T, &Exchange),
) -> f64 {
    let mut fastest = f64::INFINITY;
    let start = Instant::now();
    while start.elapsed() < Duration::from_secs(2) {
        fastest = fastest.min(seconds(work, prepared, &mut call));
    }
    work.round.len() as f64 / fastest
}

#[cfg(test)]
mod tests {
    use super::*;

    #[test]
    fn a_round_from_a_copy_gives_the_written_replies() {
        for work in workloads().expect("all accepted") {
            let mut prepared = Tag::fresh(&work.uid).expect("a tag");
            for exchange in &work.prepare {
                prepared.exchange(&exchange.command, &exchange.random);
            }
            for _ in 0..2 {
                let mut tag = prepared.clone();
                for exchange in &work.round {
                    let reply = tag.exchange(&exchange.command, &exchange.random);
                    assert_eq!(reply, exchange.reply);
                }
            }
        }
    }
}
