//! Calls a second of three workloads, the proved tag against the peer, and their ratio. Both play the same bytes, and every reply
//! is compared once before anything is measured.

mod proved;

use std::time::{Duration, Instant};

use peer::bench::{seconds, workloads, Workload};
use peer::log::Exchange;
use peer::tag::Tag;

use proved::Image;

fn peer_tag(work: &Workload) -> Option<Tag> {
    let mut tag = Tag::fresh(&work.uid)?;
    for step in &work.prepare {
        tag.exchange(&step.command, &step.random);
    }
    Some(tag)
}

fn proved_tag(work: &Workload) -> Option<Image> {
    let mut tag = Image::fresh(&work.uid)?;
    for step in &work.prepare {
        tag.call(&step.command, &step.random);
    }
    Some(tag)
}

/// Whether the proved tag gives every reply of the round.
fn agrees(work: &Workload, prepared: &Image) -> bool {
    let mut tag = prepared.clone();
    work.round
        .iter()
        .all(|step: &Exchange| tag.call(&step.command, &step.random) == step.reply)
}

/// Calls a second of both, the proved tag first: each side's fastest round. Their rounds take turns for four seconds (proved, peer,
/// proved, peer ..), so that a change in the machine's speed meets both.
fn in_turn(work: &Workload, proved: &Image, peer: &Tag) -> (f64, f64) {
    let (mut ours, mut theirs) = (f64::INFINITY, f64::INFINITY);
    let start = Instant::now();
    while start.elapsed() < Duration::from_secs(4) {
        ours = ours.min(seconds(work, proved, |tag, step| {
            tag.play(&step.command, &step.random);
        }));
        theirs = theirs.min(seconds(work, peer, |tag, step| {
            tag.exchange(&step.command, &step.random);
        }));
    }
    let calls = work.round.len() as f64;
    (calls / ours, calls / theirs)
}

/// Prints one workload's line; false where a tag refuses or a reply differs.
fn measure(work: &Workload) -> bool {
    let (Some(peer), Some(proved)) = (peer_tag(work), proved_tag(work)) else {
        println!("{}: no fresh tag", work.name);
        return false;
    };
    if !agrees(work, &proved) {
        println!("{}: the replies differ", work.name);
        return false;
    }
    let (q, p) = in_turn(work, &proved, &peer);
    println!("{:<28} proved {q:>9.0}/s  peer {p:>9.0}/s  proved takes {:.2} times as long", work.name, p / q);
    true
}

fn main() {
    println!("proved: libstand.a of `rt lib` in crates/stand (LLVM at -O3), called through include/mainspur.h's functions");
    println!("peer: rustc, opt-level 3, the same process; rounds of 1,000 calls, the two in turn for four seconds, the fastest of each; images and replies on the stack");
    let done = match workloads() {
        Some(all) => all.iter().map(measure).filter(|fair| *fair).count() == all.len(),
        None => false,
    };
    if !done {
        std::process::exit(1);
    }
}
