//! `peer play`, `peer talks`, `peer counts` and `peer bench`.

use std::io::{ErrorKind, Read, Write as _};
use std::path::{Path, PathBuf};
use std::process::ExitCode;
use std::time::{SystemTime, UNIX_EPOCH};

use peer::bench::{rate, workloads};
use peer::beside::{self, Stored};
use peer::log::{Log, Played};
use peer::rng::Rng;
use peer::tag::{Tag, ROOM};
use peer::talk::{talk, taps, Tally};

const USAGE: &str = "peer play < LOG
peer play LOG..
peer talks [--seed N] [--exchanges E] [--each K] --into DIR
peer counts [--seed N] [--lines L]
peer bench";

type Outcome = Result<ExitCode, String>;

/// Writes to standard output.
fn say(text: &str) -> Result<(), String> {
    let mut out = std::io::stdout().lock();
    out.write_all(text.as_bytes())
        .and_then(|()| out.flush())
        .map_err(|error| format!("standard output: {error}"))
}

fn main() -> ExitCode {
    let arguments: Vec<String> = std::env::args().skip(1).collect();
    let outcome = match arguments.split_first() {
        Some((word, [])) if word == "play" => play(),
        Some((word, paths)) if word == "play" => play_stored(paths),
        Some((word, [])) if word == "bench" => bench(),
        Some((word, rest)) if word == "talks" => talks(rest),
        Some((word, rest)) if word == "counts" => counts(rest),
        _ => Err(USAGE.to_string()),
    };
    outcome.unwrap_or_else(|what| {
        eprintln!("{what}");
        ExitCode::FAILURE
    })
}

/// Success only where nothing differs.
fn verdict(differing: usize) -> Outcome {
    Ok(match differing {
        0 => ExitCode::SUCCESS,
        _ => ExitCode::FAILURE,
    })
}

/// Plays the text of a log from a fresh tag.
fn played(text: &[u8]) -> Result<Played, String> {
    let log = Log::parse(text).map_err(|malformed| malformed.to_string())?;
    log.play().ok_or("line 1: no UID of a tag".to_string())
}

/// Plays the log on standard input.
fn play() -> Outcome {
    let mut text = Vec::new();
    std::io::stdin()
        .read_to_end(&mut text)
        .map_err(|error| format!("standard input: {error}"))?;
    let played = played(&text)?;
    for line in played.report(&Stored::default()) {
        say(&format!("{line}\n"))?;
    }
    let (all, differing) = (played.beside.counts.len(), played.differences.len());
    say(&format!("{all} exchanges, {differing} differ\n"))?;
    verdict(differing)
}

/// Plays stored logs, each with what stands beside it, and prints what differs.
fn play_stored(paths: &[String]) -> Outcome {
    let mut differing = 0;
    for path in paths {
        let lines = stored(Path::new(path))?;
        differing += usize::from(!lines.is_empty());
        for line in lines {
            say(&format!("{path}: {line}\n"))?;
        }
    }
    say(&format!("{} logs, {differing} differ\n", paths.len()))?;
    verdict(differing)
}

/// What differs in a stored log, NAME.log: its replies, its grants where there is NAME.grants, and
/// its blocks where there is NAME.counts.
fn stored(path: &Path) -> Result<Vec<String>, String> {
    let text = std::fs::read(path).map_err(|error| at(path, error))?;
    let played = played(&text).map_err(|what| format!("{}: {what}", path.display()))?;
    let stored = Stored {
        grants: read_if_there(&path.with_extension("grants"))?,
        counts: read_if_there(&path.with_extension("counts"))?,
    };
    Ok(played.report(&stored))
}

fn read_if_there(path: &Path) -> Result<Option<String>, String> {
    match std::fs::read_to_string(path) {
        Err(error) if error.kind() == ErrorKind::NotFound => Ok(None),
        read => read.map(Some).map_err(|error| at(path, error)),
    }
}

/// What `peer talks` is asked for.
struct Order {
    seed: u64,
    exchanges: usize,
    each: usize,
    into: PathBuf,
}

impl Order {
    fn parse(arguments: &[String]) -> Result<Order, String> {
        let (mut seed, mut exchanges, mut each, mut into) = (clock(), 20_000, 400, None);
        for (name, value) in options(arguments)? {
            match name {
                "--seed" => seed = number(value)?,
                "--exchanges" => exchanges = number(value)?,
                "--each" => each = number(value)?,
                "--into" => into = Some(PathBuf::from(value)),
                _ => return Err(USAGE.to_string()),
            }
        }
        if each == 0 {
            return Err("--each must be at least 1".to_string());
        }
        Ok(Order {
            seed,
            exchanges,
            each,
            into: into.ok_or(USAGE)?,
        })
    }
}

/// Options, each with its value.
fn options(arguments: &[String]) -> Result<Vec<(&str, &str)>, String> {
    let pairs = arguments.chunks(2).map(|pair| match pair {
        [name, value] => Ok((name.as_str(), value.as_str())),
        _ => Err(USAGE.to_string()),
    });
    pairs.collect()
}

fn number<T: std::str::FromStr>(text: &str) -> Result<T, String> {
    text.parse().map_err(|_| format!("not a number: {text}"))
}

/// A seed from the clock.
fn clock() -> u64 {
    SystemTime::now()
        .duration_since(UNIX_EPOCH)
        .map_or(0, |since| since.as_nanos() as u64)
}

/// Writes random talks as logs, grants and counts beside them, and prints what happened in them.
fn talks(arguments: &[String]) -> Outcome {
    let order = Order::parse(arguments)?;
    say(&format!("seed {}\n", order.seed))?;
    std::fs::create_dir_all(&order.into).map_err(|error| at(&order.into, error))?;
    let mut tally = Tally::default();
    let (mut left, mut index) = (order.exchanges, 0);
    while left > 0 {
        let size = left.min(order.each);
        let (log, beside) = talk(order.seed, index, size, &mut tally).ok_or("no tag")?;
        let path = order.into.join(format!("talk-{index:05}.log"));
        write(&path, log.text())?;
        let (grants, counts) = (beside::text(&beside.grants), beside::text(&beside.counts));
        write(&path.with_extension("grants"), grants)?;
        write(&path.with_extension("counts"), counts)?;
        left -= size;
        index += 1;
    }
    say(&format!("{index} talks\n{tally}"))?;
    Ok(ExitCode::SUCCESS)
}

fn write(path: &Path, text: String) -> Result<(), String> {
    std::fs::write(path, text).map_err(|error| at(path, error))
}

fn at(path: &Path, error: std::io::Error) -> String {
    format!("{}: {error}", path.display())
}

/// Prints fresh settings strings of file 2, each with the blocks of a tap; the seed fixes them.
fn counts(arguments: &[String]) -> Outcome {
    let (mut seed, mut lines) = (clock(), 400);
    for (name, value) in options(arguments)? {
        match name {
            "--seed" => seed = number(value)?,
            "--lines" => lines = number(value)?,
            _ => return Err(USAGE.to_string()),
        }
    }
    let mut rng = Rng::new(seed);
    let mut text =
        format!("# seed {seed}: settings strings of file 2, blocks of a mirrored read\n");
    for _ in 0..lines {
        text.push_str(&taps::line(&mut rng).ok_or("no tag")?);
        text.push('\n');
    }
    say(&text)?;
    Ok(ExitCode::SUCCESS)
}

/// Prints calls per second for each workload.
fn bench() -> Outcome {
    for work in &workloads().ok_or("a workload was refused")? {
        let mut prepared = Tag::fresh(&work.uid).ok_or("no tag")?;
        for exchange in &work.prepare {
            prepared.exchange(&exchange.command, &exchange.random);
        }
        let mut room = [0; ROOM];
        let rate = rate(work, &prepared, |tag, exchange| {
            tag.call(&exchange.command, &exchange.random, &mut room);
        });
        say(&format!("{:<28}{rate:>12.0} calls per second\n", work.name))?;
    }
    Ok(ExitCode::SUCCESS)
}
