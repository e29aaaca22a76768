//! Plays random cases against the built programs and compares them with an independent model.

mod model;
mod play;
mod report;

use std::ffi::OsString;
use std::io::Write;
use std::path::PathBuf;
use std::process::ExitCode;

use model::answer::{Answer, Program, cause};
use play::case;
use play::check::Stage;
use play::tally::Tally;

/// Seeds 1 to this are played, odd ones for circle, even ones for pair.
const CASES: u64 = 8_000;

const USAGE: &str = "usage: compare BIN_DIR [SEED [COUNT]]
       compare model circle SHEET INPUTS ORDER [WATCHED ..]
       compare model pair SHEET FIRST SECOND [WATCHED ..]";

fn main() -> ExitCode {
    let arguments: Vec<OsString> = std::env::args_os().skip(1).collect();
    if arguments.first().is_some_and(|word| word == "model") {
        return model_program(&arguments[1..]);
    }
    match seeds(&arguments) {
        Some((first, count)) => play_all(PathBuf::from(&arguments[0]), first, count),
        None => {
            eprintln!("{USAGE}");
            ExitCode::FAILURE
        }
    }
}

/// The first seed, and how many.
fn seeds(arguments: &[OsString]) -> Option<(u64, u64)> {
    let number = |index: usize| arguments[index].to_str()?.parse::<u64>().ok();
    match arguments.len() {
        1 => Some((1, CASES)),
        2 => Some((number(1)?, 1)),
        3 => Some((number(1)?, number(2)?)),
        _ => None,
    }
}

/// Answers as the program would.
fn model_program(arguments: &[OsString]) -> ExitCode {
    let program = match arguments.first().and_then(|word| word.to_str()) {
        Some("circle") => Program::Circle,
        Some("pair") => Program::Pair,
        _ => {
            eprintln!("{USAGE}");
            return ExitCode::FAILURE;
        }
    };
    match model::programs::answer(program, &arguments[1..]) {
        Answer::Text(_, text) => return print(&text),
        Answer::Help => return print(format!("{}\n", program.usage()).as_bytes()),
        Answer::Refused(number, _) => eprintln!("{number}: {}", cause(number)),
        Answer::TooFew | Answer::NoNumber | Answer::NoText => eprintln!("{}", program.usage()),
        Answer::Unreadable(name) => eprintln!("cannot read {}", name.display()),
    }
    ExitCode::FAILURE
}

fn print(text: &[u8]) -> ExitCode {
    let mut out = std::io::stdout().lock();
    match out.write_all(text).and_then(|()| out.flush()) {
        Ok(()) => ExitCode::SUCCESS,
        Err(_) => ExitCode::FAILURE,
    }
}

fn play_all(programs: PathBuf, first: u64, count: u64) -> ExitCode {
    let folder = std::env::temp_dir().join(format!("compare-{}", std::process::id()));
    if let Err(error) = std::fs::create_dir_all(&folder) {
        eprintln!("cannot make {}: {error}", folder.display());
        return ExitCode::FAILURE;
    }
    let with_pair = programs.join("pair").exists();
    let stage = Stage { programs, folder };
    let mut tally = Tally::default();
    let mut played = 0;
    for seed in first..first.saturating_add(count) {
        if case::program_of(seed) == Program::Pair && !with_pair {
            continue;
        }
        let case = case::make(seed);
        match stage.play(&case, &mut tally) {
            Ok(answer) if count == 1 => return report::one(&stage, &case, &answer),
            Ok(_) => played += 1,
            Err(failure) => return report::failure(&stage, &case, &failure),
        }
    }
    let _ = std::fs::remove_dir_all(&stage.folder);
    let all = (first, count) == (1, CASES);
    report::end(&tally, played, with_pair, all)
}
