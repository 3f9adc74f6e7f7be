//! Logs of talks: line one the UID, then command, reply and random bytes of each
//! exchange, in capital hexadecimal.

use std::fmt;

use crate::beside::{self, Beside, Stored};
use crate::bytes::{hex, unhex};
use crate::tag::{Random, Tag, Uid};

/// One exchange of a log.
#[derive(Clone)]
pub struct Exchange {
    pub command: Vec<u8>,
    pub reply: Vec<u8>,
    pub random: Random,
}

/// A talk with the tag, from fresh.
pub struct Log {
    pub uid: Uid,
    pub exchanges: Vec<Exchange>,
}

/// A line that is not what a log has there.
#[derive(Debug, PartialEq, Eq)]
pub struct Malformed {
    pub line: usize,
    pub what: &'static str,
}

impl fmt::Display for Malformed {
    fn fmt(&self, out: &mut fmt::Formatter) -> fmt::Result {
        write!(out, "line {}: {}", self.line, self.what)
    }
}

/// An exchange whose reply differs, numbered from 1.
pub struct Difference {
    pub number: usize,
    pub logged: Vec<u8>,
    pub ours: Vec<u8>,
}

impl fmt::Display for Difference {
    fn fmt(&self, out: &mut fmt::Formatter) -> fmt::Result {
        let (logged, ours) = (hex(&self.logged), hex(&self.ours));
        write!(out, "{} {logged} {ours}", self.number)
    }
}

/// What a log played gave: the replies that differ, and what stands beside it.
#[derive(Default)]
pub struct Played {
    pub differences: Vec<Difference>,
    pub beside: Beside,
}

impl Played {
    /// A line for each reply that differs, and for each line stored beside the log that isn't ours.
    pub fn report(&self, stored: &Stored) -> Vec<String> {
        let replies = self.differences.iter().map(Difference::to_string);
        let beside = self.beside.differences(stored);
        let beside = beside.iter().map(beside::Difference::to_string);
        replies.chain(beside).collect()
    }
}

/// The lines of a text, and how many of them were read.
struct Lines<'a> {
    lines: Vec<&'a [u8]>,
    line: usize,
}

impl<'a> Lines<'a> {
    fn new(text: &'a [u8]) -> Lines<'a> {
        let text = text.strip_suffix(b"\n").unwrap_or(text);
        Lines {
            lines: text.split(|byte| *byte == b'\n').collect(),
            line: 0,
        }
    }

    fn more(&self) -> bool {
        self.line < self.lines.len()
    }

    fn malformed(&self, what: &'static str) -> Malformed {
        Malformed {
            line: self.line,
            what,
        }
    }

    fn bytes(&mut self) -> Result<Vec<u8>, Malformed> {
        let line = self.lines.get(self.line);
        self.line += 1;
        let text = line.ok_or_else(|| self.malformed("missing"))?;
        unhex(text).ok_or_else(|| self.malformed("not capital hexadecimal"))
    }

    fn exactly<const N: usize>(&mut self, what: &'static str) -> Result<[u8; N], Malformed> {
        let bytes = self.bytes()?;
        bytes.try_into().map_err(|_| self.malformed(what))
    }

    fn exchange(&mut self) -> Result<Exchange, Malformed> {
        Ok(Exchange {
            command: self.bytes()?,
            reply: self.bytes()?,
            random: self.exactly("not 20 random bytes")?,
        })
    }
}

impl Log {
    pub fn parse(text: &[u8]) -> Result<Log, Malformed> {
        let mut lines = Lines::new(text);
        let uid: Uid = lines.exactly("not a UID of 7 bytes")?;
        if Tag::fresh(&uid).is_none() {
            return Err(lines.malformed("no UID of a tag"));
        }
        let mut exchanges = Vec::new();
        while lines.more() {
            exchanges.push(lines.exchange()?);
        }
        Ok(Log { uid, exchanges })
    }

    pub fn text(&self) -> String {
        let mut text = hex(&self.uid) + "\n";
        for exchange in &self.exchanges {
            for part in [&exchange.command, &exchange.reply, &exchange.random[..]] {
                text.push_str(&hex(part));
                text.push('\n');
            }
        }
        text
    }

    /// Plays the commands from a fresh tag; none where the UID makes no tag.
    pub fn play(&self) -> Option<Played> {
        let mut tag = Tag::fresh(&self.uid)?;
        let mut played = Played::default();
        for (exchange, number) in self.exchanges.iter().zip(1..) {
            let explained = tag.explained(&exchange.command, &exchange.random);
            played.beside.push(&explained);
            let ours = explained.reply;
            if ours != exchange.reply {
                let logged = exchange.reply.clone();
                played.differences.push(Difference {
                    number,
                    logged,
                    ours,
                });
            }
        }
        Some(played)
    }
}
