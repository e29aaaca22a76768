//! What is printed at the end.

use std::ffi::OsString;
use std::path::Path;
use std::process::ExitCode;

use crate::model::answer::{Answer, cause};
use crate::play::case::Case;
use crate::play::check::{Difference, Failure, Stage};
use crate::play::tally::Tally;

/// Longer outputs are shown from shortly before the first difference on.
const SHOWN: usize = 2_000;

/// Something that was never reached is a failure only where all cases were played.
pub fn end(tally: &Tally, played: u64, with_pair: bool, all: bool) -> ExitCode {
    if !with_pair {
        println!("pair is not there: not played");
    }
    if played == 0 {
        println!("nothing was played");
        return ExitCode::FAILURE;
    }
    let missed = tally.report(with_pair);
    println!("{played:>9}  cases, no difference");
    if missed.is_empty() || !all {
        return ExitCode::SUCCESS;
    }
    println!("never reached: {}", missed.join("; "));
    ExitCode::FAILURE
}

pub fn one(stage: &Stage, case: &Case, answer: &Answer) -> ExitCode {
    println!("seed {}, {:?} for {}: no difference", case.seed, case.family, case.program.name());
    println!("files are in {}", stage.folder.display());
    show_answer(answer, 0);
    ExitCode::SUCCESS
}

pub fn failure(stage: &Stage, case: &Case, failure: &Failure) -> ExitCode {
    println!("seed {}, {:?} for {}:", case.seed, case.family, case.program.name());
    println!("files are in {}", stage.folder.display());
    match failure {
        Failure::Differs(difference) => show_difference(difference),
        Failure::Model(what) => println!("the model disagrees with itself: {what}"),
        Failure::Io(error) => println!("cannot play: {error}"),
    }
    ExitCode::FAILURE
}

fn show_difference(difference: &Difference) {
    println!("{}", command(&difference.program, &difference.arguments));
    println!("differs: {}", difference.what);
    let got = &difference.got;
    let text: &[u8] = match &difference.answer {
        Answer::Text(_, text) => text,
        _ => b"",
    };
    let same = text.iter().zip(&got.stdout).take_while(|(a, b)| a == b).count();
    show_answer(&difference.answer, same);
    println!("--- program: status {:?}, {} bytes", got.status, got.stdout.len());
    show(&got.stdout, same);
    println!("--- program's standard error");
    show(&got.stderr, 0);
}

fn show_answer(answer: &Answer, same: usize) {
    match answer {
        Answer::Text(kind, text) => {
            println!("--- model: {kind:?}, status 0, {} bytes", text.len());
            show(text, same);
        }
        Answer::Refused(number, place) => {
            println!("--- model: {place:?}, status 1\n{number}: {}", cause(*number));
        }
        other => println!("--- model: {other:?}"),
    }
}

fn show(text: &[u8], same: usize) {
    let start =
        if text.len() <= SHOWN { 0 } else { same.saturating_sub(SHOWN / 4).min(text.len()) };
    let end = text.len().min(start + SHOWN);
    if start > 0 {
        println!("[from byte {start} on]");
    }
    print!("{}", String::from_utf8_lossy(&text[start..end]));
    if end < text.len() {
        println!("\n[and {} bytes more]", text.len() - end);
    }
}

fn command(program: &Path, arguments: &[OsString]) -> String {
    let words = arguments.iter().map(|word| format!(" {word:?}"));
    format!("{}{}", program.display(), words.collect::<String>())
}
