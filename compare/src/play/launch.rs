//! Running a built program, and whether it answered what the model answers.

use std::ffi::OsString;
use std::io;
use std::os::unix::ffi::OsStrExt;
use std::path::Path;
use std::process::{Command, Stdio};

use crate::model::answer::{Answer, Program};

pub struct Got {
    pub stdout: Vec<u8>,
    pub stderr: Vec<u8>,
    /// None if a signal ended it.
    pub status: Option<i32>,
}

pub fn launch(program: &Path, arguments: &[OsString]) -> io::Result<Got> {
    let output = Command::new(program).args(arguments).stdin(Stdio::null()).output()?;
    Ok(Got { stdout: output.stdout, stderr: output.stderr, status: output.status.code() })
}

/// What is wrong with the program's answer, if anything.
pub fn difference(program: Program, answer: &Answer, got: &Got) -> Option<&'static str> {
    let usage = format!("{}\n", program.usage()).into_bytes();
    let (fails, text) = match answer {
        Answer::Text(_, text) => (false, text.as_slice()),
        Answer::Help => (false, usage.as_slice()),
        _ => (true, b"".as_slice()),
    };
    if got.status != Some(fails as i32) {
        Some("exit status")
    } else if got.stdout != text {
        Some("standard output")
    } else if !fails && !got.stderr.is_empty() {
        Some("something on standard error")
    } else {
        error_differs(answer, &got.stderr, &usage)
    }
}

fn error_differs(answer: &Answer, error: &[u8], usage: &[u8]) -> Option<&'static str> {
    match answer {
        Answer::Refused(number, _) if told_number(error) != Some(*number) => Some("number"),
        Answer::Refused(..) if !is_one_line(error) => Some("not one line on standard error"),
        Answer::TooFew | Answer::NoNumber | Answer::NoText if error != usage => Some("usage"),
        Answer::Unreadable(name) if !contains(error, name.as_bytes()) => Some("no name"),
        _ => None,
    }
}

/// The number before `: `, without zeros or signs before it.
fn told_number(line: &[u8]) -> Option<u8> {
    let end = line.windows(2).position(|two| two == b": ")?;
    let number: u8 = std::str::from_utf8(&line[..end]).ok()?.parse().ok()?;
    (number.to_string().as_bytes() == &line[..end] && line.len() > end + 3).then_some(number)
}

fn is_one_line(text: &[u8]) -> bool {
    text.len() > 1 && text.iter().position(|&byte| byte == b'\n') == Some(text.len() - 1)
}

fn contains(text: &[u8], part: &[u8]) -> bool {
    text.windows(part.len()).any(|window| window == part)
}
