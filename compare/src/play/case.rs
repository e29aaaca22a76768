//! One random case: three files and the arguments.

use std::ffi::OsString;
use std::os::unix::ffi::OsStringExt;

use super::damage;
use super::draft::{Draft, Wish, words_of};
use super::encode::{self, Words};
use super::random::Random;
use crate::model::answer::Program;
use crate::model::sheet::{MOST_INPUTS, MOST_LINES, MOST_MEMBERS, Sheet};

pub enum Content {
    Bytes(Vec<u8>),
    Missing,
    Folder,
}

pub enum Argument {
    /// The path of one of the case's files.
    File(usize),
    Word(OsString),
}

pub struct Case {
    pub seed: u64,
    pub program: Program,
    pub family: Family,
    pub files: [Content; 3],
    pub arguments: Vec<Argument>,
}

#[derive(Clone, Copy, Debug, PartialEq, Eq)]
pub enum Family {
    Good,
    DamagedSheet,
    DamagedInputs,
    DamagedThird,
    DamagedAll,
    Short,
    Outside,
    TooMany,
    OpenedDiffers,
    FigureDiffers,
    Large,
    WrongUse,
    Unreadable,
    Help,
}

/// Families with how often they are played for circle and for pair, of a thousand.
const FAMILIES: [(Family, usize, usize); 14] = [
    (Family::Good, 290, 190),
    (Family::DamagedSheet, 200, 80),
    (Family::DamagedInputs, 130, 80),
    (Family::DamagedThird, 40, 100),
    (Family::DamagedAll, 50, 50),
    (Family::Short, 120, 130),
    (Family::Outside, 60, 50),
    (Family::TooMany, 0, 50),
    (Family::OpenedDiffers, 0, 90),
    (Family::FigureDiffers, 0, 130),
    (Family::Large, 40, 20),
    (Family::WrongUse, 50, 20),
    (Family::Unreadable, 15, 7),
    (Family::Help, 5, 3),
];

/// Everything a case is made of, before it is written as files.
struct Parts {
    draft: Draft,
    members: Vec<Words>,
    second: Vec<Vec<u32>>,
    order: Vec<u8>,
    watched: Vec<u32>,
}

/// The case of a seed: odd seeds play circle, even ones pair.
pub fn make(seed: u64) -> Case {
    let random = &mut Random::new(seed);
    let program = program_of(seed);
    let family = family(random, program);
    let mut parts = parts(random, program, family);
    change_parts(random, family, &mut parts);
    let mut files = files(program, &parts);
    damage_files(random, family, program, &parts, &mut files);
    let arguments = arguments(random, family, &parts);
    let files = contents(random, family, files);
    Case { seed, program, family, files, arguments }
}

pub fn program_of(seed: u64) -> Program {
    if seed % 2 == 1 { Program::Circle } else { Program::Pair }
}

fn family(random: &mut Random, program: Program) -> Family {
    let weight = |&(_, circle, pair): &(Family, usize, usize)| match program {
        Program::Circle => circle,
        Program::Pair => pair,
    };
    let weights: Vec<usize> = FAMILIES.iter().map(weight).collect();
    FAMILIES[random.weighted(&weights)].0
}

/// Each n from 1 to 15 with each t that it allows is as likely as any other.
pub fn sizes() -> Vec<(usize, usize)> {
    (1..=MOST_MEMBERS).flat_map(|n| (0..=(n - 1) / 2).map(move |t| (n, t))).collect()
}

fn parts(random: &mut Random, program: Program, family: Family) -> Parts {
    let (n, t) = *random.pick(&sizes());
    let watched = watched(random, program, family, n, t);
    let mut wish = Wish {
        n,
        t,
        lines: length(random),
        least_inputs: 0,
        most_inputs: MOST_INPUTS,
        kept: watched.clone(),
        alike: program == Program::Pair,
    };
    if family == Family::FigureDiffers {
        wish.kept.truncate(wish.kept.len().saturating_sub(random.between(1, 2)));
    }
    if family == Family::Large {
        enlarge(random, &mut wish);
    }
    let draft = Draft::make(random, &wish);
    let members = words_of(random, &draft);
    let second = second(random, &draft);
    Parts { draft, members, second, order: order(random), watched }
}

fn length(random: &mut Random) -> usize {
    match random.below(100) {
        0..50 => random.between(1, 12),
        50..90 => random.between(1, 60),
        90..99 => random.between(60, 300),
        _ => random.between(300, MOST_LINES),
    }
}

/// As many lines or input lines as may be, or more.
fn enlarge(random: &mut Random, wish: &mut Wish) {
    let inputs = MOST_INPUTS + *random.pick(&[0, 0, 1, 1, 200]);
    match random.below(4) {
        0 => wish.lines = MOST_LINES,
        1 => wish.lines = MOST_LINES + *random.pick(&[1, 1, 1, 20, 61_439]),
        2 => {
            (wish.least_inputs, wish.most_inputs) = (inputs, inputs);
            wish.lines = inputs + random.between(0, 200);
        }
        _ => {
            (wish.least_inputs, wish.most_inputs) = (inputs, inputs);
            wish.lines = MOST_LINES + random.between(0, 1);
        }
    }
}

/// A set of members, from 1: for circle of any size, for pair of one that allows a pairing.
fn watched(random: &mut Random, program: Program, family: Family, n: usize, t: usize) -> Vec<u32> {
    let size = match (program, family) {
        (Program::Circle, _) if random.chance(20) => 0,
        (Program::Circle, _) => random.between(0, n),
        (_, Family::TooMany) => random.between(t + 1, n),
        (_, Family::FigureDiffers) => random.between(1, t.max(1)),
        _ => random.between(0, t),
    };
    let mut members: Vec<u32> = (1..=n as u32).collect();
    random.shuffle(&mut members);
    members.truncate(size);
    members
}

/// The second run's figures, now and then with some to spare.
fn second(random: &mut Random, draft: &Draft) -> Vec<Vec<u32>> {
    let spare = *random.pick(&[0, 0, 3]);
    let mut lists = draft.second.clone();
    for list in &mut lists {
        (0..random.between(0, spare)).for_each(|_| list.push(random.number()));
    }
    lists
}

fn order(random: &mut Random) -> Vec<u8> {
    let words = *random.pick(&[0, 1, 2, 3, 10, 100]);
    (0..4 * words).map(|_| random.next() as u8).collect()
}

fn change_parts(random: &mut Random, family: Family, parts: &mut Parts) {
    // Which of two answers comes first is seen where both have a cause.
    let differs = family == Family::OpenedDiffers
        || matches!(family, Family::FigureDiffers | Family::TooMany) && random.chance(20);
    if differs {
        for _ in 0..random.between(1, 3) {
            change_figure(random, &mut parts.second);
        }
    }
    let mixed = [Family::Outside, Family::TooMany, Family::OpenedDiffers, Family::FigureDiffers];
    if family == Family::Short || mixed.contains(&family) && random.chance(20) {
        shorten(random, parts);
    }
}

fn shorten(random: &mut Random, parts: &mut Parts) {
    for _ in 0..random.between(1, 2) {
        match random.below(5) {
            0 => change_first(&mut parts.members, |lists| damage::short_figures(random, lists)),
            1 => damage::short_figures(random, &mut parts.second),
            2 => shorten_line(random, parts),
            _ => {
                let member = random.below(parts.members.len());
                damage::short_coins(random, &mut parts.members[member].coins);
            }
        }
    }
}

/// Makes figures, coins or both run out at one input line.
fn shorten_line(random: &mut Random, parts: &mut Parts) {
    let draft = &parts.draft;
    let inputs: Vec<usize> = (0..draft.lines.len()).filter(|&l| draft.is_input(l)).collect();
    let (index, figures, coins) = draft.used_before(*random.pick(&inputs));
    if random.chance(70) {
        parts.members[index].coins.truncate(coins + random.between(0, draft.t));
    }
    if random.chance(50) {
        parts.members[index].figures.truncate(figures);
    }
    if random.chance(50) {
        parts.second[index].truncate(figures);
    }
}

/// Does something to the lists of the first run's figures.
fn change_first(members: &mut [Words], change: impl FnOnce(&mut [Vec<u32>])) {
    let mut lists: Vec<Vec<u32>> = members.iter().map(|member| member.figures.clone()).collect();
    change(&mut lists);
    for (member, list) in members.iter_mut().zip(lists) {
        member.figures = list;
    }
}

fn change_figure(random: &mut Random, lists: &mut [Vec<u32>]) {
    let list = random.below(lists.len());
    if !lists[list].is_empty() {
        let place = random.below(lists[list].len());
        lists[list][place] = random.number();
    }
}

fn files(program: Program, parts: &Parts) -> [Vec<u8>; 3] {
    let third = match program {
        Program::Circle => parts.order.clone(),
        Program::Pair => encode::figures(&parts.second),
    };
    let draft = &parts.draft;
    let sheet = encode::sheet(draft.n, draft.t, &draft.lines);
    [sheet, encode::inputs(&parts.members), third]
}

fn damage_files(
    random: &mut Random,
    family: Family,
    program: Program,
    parts: &Parts,
    files: &mut [Vec<u8>; 3],
) {
    match family {
        Family::DamagedSheet => {
            damage_sheet(random, &mut files[0]);
            fit_to_sheet(random, program, files);
        }
        Family::DamagedInputs => damage_inputs(random, parts, &mut files[1]),
        Family::DamagedThird => damage_third(random, program, parts, &mut files[2]),
        Family::DamagedAll => {
            if random.chance(30) {
                damage_sheet(random, &mut files[0]);
            }
            if random.chance(60) {
                damage_inputs(random, parts, &mut files[1]);
            }
            if random.chance(60) {
                damage_third(random, program, parts, &mut files[2]);
            }
        }
        Family::Large if random.chance(40) => damage_last_lines(random, &mut files[0]),
        Family::Unreadable if random.chance(30) => {
            damage_sheet(random, &mut files[0]);
            damage_inputs(random, parts, &mut files[1]);
        }
        _ => {}
    }
}

fn damage_sheet(random: &mut Random, bytes: &mut Vec<u8>) {
    if random.chance(70) {
        damage::sheet(random, bytes);
    } else {
        damage::any_bytes(random, bytes);
    }
}

/// Damages one of the last ten lines.
fn damage_last_lines(random: &mut Random, bytes: &mut [u8]) {
    let lines = u16::from_be_bytes([bytes[3], bytes[4]]) as usize;
    let number = lines - 1 - random.below(10);
    damage::line(random, bytes, number);
}

/// Where the sheet is still a good one, though another, makes the other files fit it.
fn fit_to_sheet(random: &mut Random, program: Program, files: &mut [Vec<u8>; 3]) {
    let Ok(sheet) = Sheet::read(&files[0]) else {
        return;
    };
    let draft = Draft::of_sheet(random, sheet);
    files[1] = encode::inputs(&words_of(random, &draft));
    if program == Program::Pair {
        files[2] = encode::figures(&draft.second);
    }
}

fn damage_inputs(random: &mut Random, parts: &Parts, bytes: &mut Vec<u8>) {
    let mut members = parts.members.clone();
    match random.below(5) {
        0 | 1 => {
            change_first(&mut members, |lists| damage::large_figures(random, lists));
            *bytes = encode::inputs(&members);
        }
        2 | 3 => damage::list_count(random, bytes, &damage::lengths(&members)),
        _ => damage::any_bytes(random, bytes),
    }
    if random.chance(15) {
        damage::any_bytes(random, bytes);
    }
}

fn damage_third(random: &mut Random, program: Program, parts: &Parts, bytes: &mut Vec<u8>) {
    if program == Program::Circle || random.chance(30) {
        return damage::any_bytes(random, bytes);
    }
    let mut lists = parts.second.clone();
    if random.chance(50) {
        damage::large_figures(random, &mut lists);
        *bytes = encode::figures(&lists);
    } else {
        let lengths: Vec<usize> = lists.iter().map(Vec::len).collect();
        damage::list_count(random, bytes, &lengths);
    }
}

fn arguments(random: &mut Random, family: Family, parts: &Parts) -> Vec<Argument> {
    let mut words = watched_words(random, &parts.watched);
    match family {
        Family::Help => return vec![Argument::Word("--help".into())],
        Family::WrongUse if random.chance(40) => return too_few(random),
        Family::WrongUse if random.chance(20) => return no_text(random, words),
        Family::WrongUse => {
            let place = random.between(0, words.len());
            words.insert(place, no_number(random));
        }
        Family::Outside => {
            let place = random.between(0, words.len());
            words.insert(place, outside(random, parts.draft.n).into());
        }
        _ => {}
    }
    let files = (0..3).map(Argument::File);
    files.chain(words.into_iter().map(Argument::Word)).collect()
}

/// The members in any order, some again, some with zeros before them.
fn watched_words(random: &mut Random, watched: &[u32]) -> Vec<OsString> {
    let mut members = watched.to_vec();
    if !members.is_empty() && random.chance(40) {
        for _ in 0..random.between(1, 20) {
            members.push(*random.pick(watched));
        }
        random.shuffle(&mut members);
    }
    let zeros = *random.pick(&[0, 0, 0, 1, 25]);
    let mut word = |member| match random.chance(30) {
        true => format!("{}{member}", "0".repeat(zeros)).into(),
        false => format!("{member}").into(),
    };
    members.into_iter().map(&mut word).collect()
}

fn too_few(random: &mut Random) -> Vec<Argument> {
    let mut arguments: Vec<Argument> = (0..random.below(3)).map(Argument::File).collect();
    if arguments.len() == 2 && random.chance(30) {
        arguments[0] = Argument::Word("--help".into());
    }
    arguments
}

/// The name of a file that is not UTF-8.
fn no_text(random: &mut Random, words: Vec<OsString>) -> Vec<Argument> {
    let mut arguments: Vec<Argument> = (0..3).map(Argument::File).collect();
    arguments[random.below(3)] = Argument::Word(OsString::from_vec(b"sheet\xff".to_vec()));
    arguments.extend(words.into_iter().map(Argument::Word));
    arguments
}

fn no_number(random: &mut Random) -> OsString {
    let words: [&[u8]; 18] = [
        b"",
        b"x",
        b"-1",
        b"+1",
        b"1.0",
        b" 1",
        b"1 ",
        b"0x1",
        b"1e0",
        b"1_0",
        b"--help",
        b"1\n",
        b"-0",
        b"1,2",
        b"\xff",
        b"1\xff",
        "\u{ff11}".as_bytes(),
        "\u{661}".as_bytes(),
    ];
    OsString::from_vec(random.pick(&words).to_vec())
}

/// Numbers that are in no circle of n, some of them members when cut to some width.
fn outside(random: &mut Random, n: usize) -> String {
    let numbers = [
        "0",
        "00",
        "16",
        "017",
        "256",
        "257",
        "65537",
        "2147483648",
        "4294967296",
        "4294967297",
        "9223372036854775809",
        "18446744073709551615",
        "18446744073709551616",
        "18446744073709551617",
        "99999999999999999999",
        "340282366920938463463374607431768211457",
    ];
    if random.chance(30) { format!("{}", n + 1) } else { random.pick(&numbers).to_string() }
}

/// Some files may be missing, or be a folder.
fn contents(random: &mut Random, family: Family, files: [Vec<u8>; 3]) -> [Content; 3] {
    let mut contents = files.map(Content::Bytes);
    let takes_away = family == Family::Unreadable
        || matches!(family, Family::WrongUse | Family::Help) && random.chance(30);
    if takes_away {
        for _ in 0..random.between(1, 2) {
            let missing = random.chance(60);
            let file = random.below(3);
            contents[file] = if missing { Content::Missing } else { Content::Folder };
        }
    }
    contents
}
