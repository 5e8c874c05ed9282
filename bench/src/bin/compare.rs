//! Compares the Rust head with the proved program headrun, on random scripts, byte for byte.

#[path = "compare/damage.rs"]
mod damage;
#[path = "compare/generate.rs"]
mod generate;
#[path = "compare/observe.rs"]
mod observe;
#[path = "compare/random.rs"]
mod random;
#[path = "compare/tally.rs"]
mod tally;

use std::io::{self, Read, Write};
use std::path::{Path, PathBuf};
use std::process::{Command, ExitCode, Stdio};
use std::sync::atomic::{AtomicBool, Ordering};

use bench::script;
use random::Random;
use tally::Tally;

const THREADS: u64 = 2;

struct Settings {
    headrun: PathBuf,
    scripts: u64,
    seed: u64,
}

fn settings() -> Option<Settings> {
    let mut arguments = std::env::args_os().skip(1);
    let headrun = PathBuf::from(arguments.next()?);
    let mut number = |default| match arguments.next() {
        Some(text) => text.to_str()?.parse().ok(),
        None => Some(default),
    };
    Some(Settings { headrun, scripts: number(100_000)?, seed: number(1)? })
}

fn main() -> ExitCode {
    let Some(settings) = settings() else {
        eprintln!("usage: compare HEADRUN [SCRIPTS [SEED]]");
        return ExitCode::from(2);
    };
    let stop = AtomicBool::new(false);
    let parts: Vec<Result<Tally, Failure>> = std::thread::scope(|scope| {
        let workers: Vec<_> = (0..THREADS)
            .map(|first| {
                let (settings, stop) = (&settings, &stop);
                scope.spawn(move || work(settings, first, stop))
            })
            .collect();
        workers.into_iter().filter_map(|worker| worker.join().ok()).collect()
    });
    let mut tally = Tally::new();
    for part in parts {
        match part {
            Ok(part) => tally.add(&part),
            Err(failure) => return failure.report(&settings),
        }
    }
    let (table, never) = tally.table();
    println!("Seed {}, {} scripts", settings.seed, settings.scripts);
    println!("{table}");
    if never > 0 {
        println!("{never} wanted items were NEVER reached");
    }
    println!("{} scripts, 0 differ", tally.scripts);
    ExitCode::SUCCESS
}

/// Why a run ends before its end.
enum Failure {
    Differs { index: u64, text: Vec<u8> },
    Program(io::Error),
}

impl Failure {
    fn report(self, settings: &Settings) -> ExitCode {
        match self {
            Failure::Program(error) => {
                eprintln!("{}: {error}", settings.headrun.display());
                ExitCode::from(2)
            }
            Failure::Differs { index, text } => {
                let text = shrink(&settings.headrun, text);
                println!("Script {index} of seed {} differs. Shrunk to:", settings.seed);
                println!("{}", shown(&text));
                println!("--- the Rust head prints");
                println!("{}", shown(&expected(&text)));
                match outcome(&settings.headrun, &text) {
                    Ok((output, success)) => {
                        println!("--- headrun prints (exit status {})", if success { "0" } else { "not 0" });
                        println!("{}", shown(&output));
                    }
                    Err(error) => println!("--- headrun: {error}"),
                }
                println!("1 script differs");
                ExitCode::FAILURE
            }
        }
    }
}

/// A text for people: bytes that cannot be seen are escaped, and very long lines are cut.
fn shown(text: &[u8]) -> String {
    let lines = text.split(|&byte| byte == b'\n').map(|line| match line.get(..200) {
        Some(start) => format!("{} .. ({} bytes)", start.escape_ascii(), line.len()),
        None => line.escape_ascii().to_string(),
    });
    lines.collect::<Vec<_>>().join("\n")
}

/// Every script whose index is `first` modulo the number of threads.
fn work(settings: &Settings, first: u64, stop: &AtomicBool) -> Result<Tally, Failure> {
    let mut tally = Tally::new();
    let mut index = first;
    while index < settings.scripts && !stop.load(Ordering::Relaxed) {
        let text = count_script(&mut Random::new(settings.seed, index), index, &mut tally);
        let result = differs(&settings.headrun, &text);
        if !matches!(result, Ok(false)) {
            stop.store(true, Ordering::Relaxed);
        }
        match result {
            Ok(false) => {}
            Ok(true) => return Err(Failure::Differs { index, text }),
            Err(error) => return Err(Failure::Program(error)),
        }
        index += THREADS;
    }
    Ok(tally)
}

/// Makes a script and counts what it reaches.
fn count_script(random: &mut Random, index: u64, tally: &mut Tally) -> Vec<u8> {
    let (text, damaged) = if index % 20_000 == 19_999 {
        (damage::joined(&generate::longest(random)), None)
    } else if random.chance(20) {
        let lines = generate::script(random);
        let damaged = damage::damage(random, lines);
        (damaged.text, Some((damaged.kind, damaged.bad_line)))
    } else {
        (damage::joined(&generate::script(random)), None)
    };
    tally.scripts += 1;
    tally.octets += text.len() as u64;
    let bad_line = observe::observe(&text, tally);
    tally.malformed += u64::from(bad_line.is_some());
    if let Some((kind, meant)) = damaged {
        use tally::Text::{ByteAnywhere, CutAnywhere, Rubbish};
        if bad_line == meant || matches!(kind, ByteAnywhere | CutAnywhere | Rubbish) {
            tally.text(kind);
        } else {
            tally.mislabelled += 1;
        }
    } else if bad_line.is_some() {
        tally.mislabelled += 1;
    }
    text
}

fn expected(text: &[u8]) -> Vec<u8> {
    let mut out = Vec::new();
    script::run(text, &mut out);
    out
}

fn differs(headrun: &Path, text: &[u8]) -> io::Result<bool> {
    let (output, success) = outcome(headrun, text)?;
    Ok(!success || output != expected(text))
}

/// What a pipe holds without a reader.
const PIPE: usize = 60_000;

/// What headrun prints for a text, and whether its exit status is 0.
fn outcome(headrun: &Path, text: &[u8]) -> io::Result<(Vec<u8>, bool)> {
    let mut child = Command::new(headrun).stdin(Stdio::piped()).stdout(Stdio::piped()).spawn()?;
    let (Some(mut stdin), Some(mut stdout)) = (child.stdin.take(), child.stdout.take()) else {
        return Err(io::Error::other("no pipes"));
    };
    // headrun may end without having read everything, so a write that fails is none of our business.
    let mut feed = move || drop(stdin.write_all(text));
    let mut output = Vec::new();
    if text.len() <= PIPE {
        feed();
        drop(feed);
        stdout.read_to_end(&mut output)?;
    } else {
        std::thread::scope(|scope| {
            scope.spawn(feed);
            stdout.read_to_end(&mut output)
        })?;
    }
    let status = child.wait()?;
    Ok((output, status.success()))
}

/// Leaves out event lines, many at a time and then single ones, while the outputs still differ.
fn shrink(headrun: &Path, text: Vec<u8>) -> Vec<u8> {
    let (body, end) = match text.strip_suffix(b"\n") {
        Some(body) => (body, &b"\n"[..]),
        None => (&text[..], &b""[..]),
    };
    let mut lines: Vec<Vec<u8>> = body.split(|&byte| byte == b'\n').map(<[u8]>::to_vec).collect();
    let whole = |lines: &[Vec<u8>]| [&lines.join(&b'\n')[..], end].concat();
    let mut size = lines.len().next_power_of_two();
    while size > 0 {
        let mut from = 1;
        while from < lines.len() {
            let fewer = without(&lines, from, size);
            if differs(headrun, &whole(&fewer)).unwrap_or(false) {
                lines = fewer;
            } else {
                from += size;
            }
        }
        size /= 2;
    }
    whole(&lines)
}

/// The lines without some of them, and the count lowered where it is one.
fn without(lines: &[Vec<u8>], from: usize, size: usize) -> Vec<Vec<u8>> {
    let to = lines.len().min(from + size);
    let mut fewer = lines[..from].to_vec();
    fewer.extend_from_slice(&lines[to..]);
    if let Some(count) = script::parse_count(&fewer[0]) {
        fewer[0] = usize::from(count).saturating_sub(to - from).to_string().into_bytes();
    }
    fewer
}
