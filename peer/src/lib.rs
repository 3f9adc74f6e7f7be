//! A software model of an NTAG 424 DNA tag, written from the papers alone as a second
//! opinion, with a player of logs, a maker of random talks and a bench.

pub mod aes;
pub mod bench;
pub mod beside;
pub mod bytes;
pub mod command;
pub mod crypto;
pub mod grant;
pub mod log;
pub mod messaging;
pub mod reader;
pub mod rng;
pub mod settings;
pub mod status;
pub mod tag;
pub mod talk;
