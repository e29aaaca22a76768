//! Plays one case: writes its files, asks program and model, and compares.

use std::ffi::OsString;
use std::io;
use std::path::{Path, PathBuf};

use super::case::{Argument, Case, Content};
use super::encode::{self, Words};
use super::launch::{Got, difference, launch};
use super::reached::{Files, count_case};
use super::tally::Tally;
use crate::model::answer::{Answer, Kind, Program, write_numbers};
use crate::model::inputs::Hand;
use crate::model::pairing::{Pairing, pair};
use crate::model::programs::answer;
use crate::model::{plain, run};

const NAMES: [&str; 3] = ["sheet", "inputs", "third"];

/// Where the programs are, and where files go.
pub struct Stage {
    pub programs: PathBuf,
    pub folder: PathBuf,
}

pub struct Difference {
    pub what: String,
    pub program: PathBuf,
    pub arguments: Vec<OsString>,
    pub answer: Answer,
    pub got: Got,
}

pub enum Failure {
    Differs(Box<Difference>),
    /// The model disagrees with itself.
    Model(String),
    Io(io::Error),
}

impl From<io::Error> for Failure {
    fn from(error: io::Error) -> Failure {
        Failure::Io(error)
    }
}

impl Stage {
    pub fn play(&self, case: &Case, tally: &mut Tally) -> Result<Answer, Failure> {
        self.write_files(case)?;
        let arguments = self.arguments(case);
        let answer = self.ask(case.program, &arguments)?;
        count_case(case.program, &arguments, &answer, tally)?;
        match answer {
            Answer::Text(Kind::Opened | Kind::OpenedAndSeen, _) => check_run(&arguments)?,
            Answer::Text(Kind::Coins, _) => self.check_pairing(&arguments, tally)?,
            _ => {}
        }
        Ok(answer)
    }

    fn write_files(&self, case: &Case) -> io::Result<()> {
        for (name, content) in NAMES.iter().zip(&case.files) {
            let path = self.folder.join(name);
            clear(&path)?;
            match content {
                Content::Bytes(bytes) => std::fs::write(path, bytes)?,
                Content::Folder => std::fs::create_dir(path)?,
                Content::Missing => {}
            }
        }
        Ok(())
    }

    fn arguments(&self, case: &Case) -> Vec<OsString> {
        let word = |argument: &Argument| match argument {
            Argument::File(number) => self.folder.join(NAMES[*number]).into_os_string(),
            Argument::Word(word) => word.clone(),
        };
        case.arguments.iter().map(word).collect()
    }

    /// The answer of the model, if the program gives the same.
    fn ask(&self, program: Program, arguments: &[OsString]) -> Result<Answer, Failure> {
        let path = self.programs.join(program.name());
        let answer = answer(program, arguments);
        let got = launch(&path, arguments)?;
        match difference(program, &answer, &got) {
            None => Ok(answer),
            Some(what) => Err(Failure::Differs(Box::new(Difference {
                what: what.to_string(),
                program: path,
                arguments: arguments.to_vec(),
                answer,
                got,
            }))),
        }
    }

    /// The paired run must look the same, and its own pairing lead back to the first run.
    fn check_pairing(&self, arguments: &[OsString], tally: &mut Tally) -> Result<(), Failure> {
        let Files { sheet, first, second, watched, .. } = Files::read(Program::Pair, arguments)?;
        let second = second.unwrap_or_default();
        let Pairing::Coins(coins) = pair(&sheet, &first, &second, &watched) else {
            return Err(Failure::Model("no coins the second time".to_string()));
        };
        let drawn = drawn(&first, &coins);
        let changed = coins.iter().zip(&first).any(|(new, hand)| !hand.coins.starts_with(new));
        tally.count("pair: coins that differ from the first run's", changed as u64);
        let back = self.write_back(arguments, &first, &second, coins)?;
        expect(&self.ask(Program::Pair, &back)?, &drawn, "the way back")?;
        tally.count("pair: there and back", 1);
        self.check_seen(arguments, &back)?;
        tally.count("pair: seen alike", 1);
        Ok(())
    }

    /// The files of the way back: the second run as the first, and the first's figures.
    fn write_back(
        &self,
        arguments: &[OsString],
        first: &[Hand],
        second: &[Vec<u32>],
        coins: Vec<Vec<u32>>,
    ) -> io::Result<Vec<OsString>> {
        let members = second.iter().cloned().zip(coins);
        let members: Vec<Words> =
            members.map(|(figures, coins)| Words { figures, coins }).collect();
        let figures: Vec<Vec<u32>> = first.iter().map(|hand| hand.figures.clone()).collect();
        let mut back = arguments.to_vec();
        back[1] = self.folder.join("back.inputs").into_os_string();
        back[2] = self.folder.join("back.third").into_os_string();
        std::fs::write(&back[1], encode::inputs(&members))?;
        std::fs::write(&back[2], encode::figures(&figures))?;
        Ok(back)
    }

    /// Circle must print the same of both runs.
    fn check_seen(&self, arguments: &[OsString], back: &[OsString]) -> Result<(), Failure> {
        let order = self.folder.join("order").into_os_string();
        std::fs::write(&order, [])?;
        let run_of = |names: &[OsString]| {
            let mut names = names.to_vec();
            names[2] = order.clone();
            self.ask(Program::Circle, &names)
        };
        let (first, second) = (run_of(arguments)?, run_of(back)?);
        match second {
            Answer::Text(_, text) => expect(&first, &text, "what is seen of both runs"),
            _ => Err(Failure::Model("the paired run is refused".to_string())),
        }
    }
}

/// The coins that the first run draws: as many as the second's.
fn drawn(first: &[Hand], coins: &[Vec<u32>]) -> Vec<u8> {
    let mut text = Vec::new();
    for (hand, coins) in first.iter().zip(coins) {
        write_numbers(&hand.coins[..coins.len()], &mut text);
    }
    text
}

fn expect(answer: &Answer, text: &[u8], what: &str) -> Result<(), Failure> {
    match answer {
        Answer::Text(_, got) if got == text => Ok(()),
        _ => Err(Failure::Model(format!("{what} differs"))),
    }
}

/// What the run on shares opens must be the plain meaning.
fn check_run(arguments: &[OsString]) -> Result<(), Failure> {
    let Files { sheet, first, watched, .. } = Files::read(Program::Circle, arguments)?;
    let outcome = run::run(&sheet, &first, &watched);
    if outcome.opened != plain::opened(&sheet, first.iter().map(|hand| &hand.figures)) {
        return Err(Failure::Model("the run differs from the plain meaning".to_string()));
    }
    Ok(())
}

/// Takes away a file or an empty folder, if there is one.
fn clear(path: &Path) -> io::Result<()> {
    if path.is_dir() {
        std::fs::remove_dir(path)
    } else if path.exists() {
        std::fs::remove_file(path)
    } else {
        Ok(())
    }
}
