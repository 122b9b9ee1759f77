// SPDX-License-Identifier: MIT
//! Judges a log of calls, which README.md describes.
use checker::{Failure, Fault, Refused, Unread, Verdict, judge_all};
use std::io::{self, BufReader};
use std::path::PathBuf;
use std::process::ExitCode;
use std::{env, fs, thread};

const HELP: &str = "\
Looks for an order that explains what the threads of a cache were told

Usage: checker [--alter N] [--beside N] [--jobs N] [--refused FILE] <LOG

  --alter N       Answers of each round in turn that are altered, one at a time; of each kind one may be
                  accepted, or 1 in 1000 [default: 0]
  --beside N      Of 1000 calls on threads, how many another call overlaps, at least [default: 0]
  --jobs N        Rounds that are judged at a time [default: the number of processors]
  --refused FILE  Where the first round goes that isn't accepted

Exit status:
  0  every answer is explained
  1  an answer isn't, too many altered ones are, or too few calls were made beside others
  2  a bad command line, or a line that is none of a log
  3  a search that is too long, or a log that can't be read
";

const UNEXPLAINED: u8 = 1;

const BAD_USAGE: u8 = 2;

const FAILED: u8 = 3;

struct Options {
    alter: usize,
    beside: u64,
    jobs: usize,
    refused: Option<PathBuf>,
}

fn read_options(mut words: impl Iterator<Item = String>) -> Result<Options, String> {
    let jobs = thread::available_parallelism().map_or(1, usize::from);
    let mut options = Options { alter: 0, beside: 0, jobs, refused: None };
    while let Some(name) = words.next() {
        let value = words.next().ok_or(format!("{name} needs a value, or is no option"))?;
        let number = || value.parse().map_err(|_| format!("{name} is a number, and not {value}"));
        match name.as_str() {
            "--alter" => options.alter = number()?,
            "--beside" => options.beside = number()? as u64,
            "--jobs" => options.jobs = number()?,
            "--refused" => options.refused = Some(value.into()),
            _ => return Err(format!("there is no {name}")),
        }
    }
    Ok(options)
}

fn main() -> ExitCode {
    if env::args().skip(1).any(|word| word == "--help") {
        print!("{HELP}");
        return ExitCode::SUCCESS;
    }
    let options = match read_options(env::args().skip(1)) {
        Ok(options) => options,
        Err(why) => {
            eprintln!("error: {why}\n\n{HELP}");
            return BAD_USAGE.into();
        }
    };
    match judge_all(BufReader::new(io::stdin()), options.alter, options.jobs) {
        Ok(Ok(verdict)) => tell(&options, &verdict),
        Ok(Err(refused)) => tell_refused(&options, &refused),
        Err(error) => {
            eprintln!("error: {error}");
            FAILED.into()
        }
    }
}

/// Prints the counts, and whether altered answers are refused and enough calls were made beside others.
fn tell(options: &Options, verdict: &Verdict) -> ExitCode {
    let Verdict { rounds, answers, on_threads, of_passes, of_clients } = verdict;
    println!(
        "{rounds} rounds, {} answers, {on_threads} on threads, {} beside other calls",
        answers.all, answers.beside
    );
    println!(
        "refused: {} Busy, {} NoRoom, {} BucketFull, {} Held",
        answers.busy, answers.no_room, answers.bucket_full, answers.held
    );
    println!(
        "{} items moved; clients: {} items kept, {} keys evicted",
        answers.moved, answers.kept, answers.evicted
    );
    println!("accepted of altered, passes{of_passes}");
    println!("accepted of altered, clients{of_clients}");
    if let Some(kind) = of_passes.gap().or(of_clients.gap()) {
        eprintln!("error: too many answers that were altered are accepted: {kind}");
        return UNEXPLAINED.into();
    }
    if answers.beside * 1000 < on_threads * options.beside {
        eprintln!("error: under {} in 1000 answers came beside other calls", options.beside);
        return UNEXPLAINED.into();
    }
    println!("every answer is explained");
    ExitCode::SUCCESS
}

/// Prints why a round isn't accepted.
fn tell_refused(options: &Options, Refused { round, failure }: &Refused) -> ExitCode {
    eprintln!("{}: {failure}", round.lines().next().unwrap_or_default());
    if let Some(path) = &options.refused
        && let Err(error) = fs::write(path, round)
    {
        eprintln!("error: {}: {error}", path.display());
    }
    match failure {
        Failure::BadLine(bad) if bad.why == Unread::NotAsWritten => BAD_USAGE,
        Failure::History { fault: Fault::TooMany, .. } => FAILED,
        _ => UNEXPLAINED,
    }
    .into()
}
