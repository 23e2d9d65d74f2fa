//! What the command is asked to do.
use crate::commands::{Command, COMMANDS, GENERAL, STATUSES, STATUSES_IN_SHORT};
use crate::failure::Failure;
use crate::manual;
use std::ffi::{OsStr, OsString};
use std::fmt::Write;
use std::ops::RangeInclusive;

/// A command with its operands.
pub struct Call {
    pub command: &'static Command,
    pub operands: Vec<OsString>,
    options: Vec<&'static str>,
}

pub enum Asked {
    Sample,
    /// To print this.
    Text(String),
    Command(Call),
}

/// What may stand in a command's place, besides `help`.
pub const GENERAL_OPTIONS: [(&str, &str); 5] = [
    (
        "--help",
        "print the commands; after a command, its own help",
    ),
    ("--version", "print the version"),
    ("--sample", "print the card of a sample payload"),
    ("--man-page", "print the manual's page, for man"),
    (
        "--bash-completion",
        "print what bash completes these words by",
    ),
];

const USAGE: &str = "usage: srci COMMAND ..; 'srci --help' tells the commands";

pub fn parse(words: &[OsString]) -> Result<Asked, Failure> {
    let Some((first, words)) = words.split_first() else {
        return Err(Failure::Usage("a command is missing".to_string(), help()));
    };
    let general = match first.to_str() {
        Some("--help" | "-h" | "help") => return helped(words),
        Some("--version" | "-V") => Asked::Text(format!("srci {}\n", srci::VERSION)),
        Some("--sample") => Asked::Sample,
        Some("--man-page") => Asked::Text(manual::page()),
        Some("--bash-completion") => Asked::Text(manual::completion()),
        _ => return parse_command(command(first)?, words),
    };
    match words {
        [] => Ok(general),
        _ => Err(wrong(format!(
            "{} takes no operands",
            first.to_string_lossy()
        ))),
    }
}

/// `help`, and `help COMMAND`.
fn helped(words: &[OsString]) -> Result<Asked, Failure> {
    match words {
        [] => Ok(Asked::Text(help())),
        [name] if name == "help" || GENERAL_OPTIONS.iter().any(|(option, _)| name == option) => {
            Ok(Asked::Text(help()))
        }
        [name] => Ok(Asked::Text(command(name)?.help())),
        _ => Err(wrong("help takes one command".to_string())),
    }
}

fn command(name: &OsStr) -> Result<&'static Command, Failure> {
    let found = COMMANDS.iter().find(|command| name == command.name);
    found.ok_or_else(|| {
        let others = GENERAL_OPTIONS.iter().map(|(option, _)| *option);
        let words = COMMANDS.iter().map(|command| command.name).chain(["help"]);
        let hint = meant(name, words.chain(others));
        wrong(format!("there is no command {name:?}{hint}"))
    })
}

fn wrong(what: String) -> Failure {
    Failure::Usage(what, format!("{USAGE}\n"))
}

fn parse_command(command: &'static Command, words: &[OsString]) -> Result<Asked, Failure> {
    let mut call = Call {
        command,
        operands: Vec::new(),
        options: Vec::new(),
    };
    let mut words = words.iter();
    while let Some(word) = words.next() {
        if word == "--" {
            call.operands.extend(words.by_ref().cloned());
        } else if word == "--help" || word == "-h" {
            return Ok(Asked::Text(command.help()));
        } else if word != "-" && word.as_encoded_bytes().starts_with(b"-") {
            call.options.push(command.option(word)?);
        } else {
            call.operands.push(word.clone());
        }
    }
    let (given, takes) = (call.operands.len(), command.takes());
    if !takes.contains(&given) {
        let needed = match takes.into_inner() {
            (least, usize::MAX) => format!("at least {least}"),
            (least, most) if least == most => least.to_string(),
            (least, most) => format!("{least} to {most}"),
        };
        let what = format!("{} takes {needed} operand(s), not {given}", command.name);
        return Err(command.wrong(what));
    }
    Ok(Asked::Command(call))
}

impl Call {
    pub fn has(&self, option: (&str, &str)) -> bool {
        self.options.contains(&option.0)
    }
}

impl Command {
    /// How many operands it takes.
    fn takes(&self) -> RangeInclusive<usize> {
        let named = self.operands;
        let left_out = named.iter().filter(|operand| operand.starts_with('['));
        let are_several = named.last().is_some_and(|operand| operand.ends_with(".."));
        let most = if are_several { usize::MAX } else { named.len() };
        named.len() - left_out.count()..=most
    }

    fn option(&self, word: &OsStr) -> Result<&'static str, Failure> {
        let mut options = self.options.iter().map(|(option, _)| *option);
        options.find(|option| word == *option).ok_or_else(|| {
            let hint = match meant(word, self.options.iter().map(|(option, _)| *option)) {
                hint if hint.is_empty() => "; a word after -- is no option".to_string(),
                hint => hint,
            };
            self.wrong(format!("{} has no option {word:?}{hint}", self.name))
        })
    }

    pub fn wrong(&self, what: String) -> Failure {
        Failure::Usage(what, format!("usage: {}\n", self.usage()))
    }

    fn help(&self) -> String {
        let mut help = format!("usage: {}\n\nDoes: {}.\n", self.usage(), self.does);
        if !self.options.is_empty() {
            let _ = write!(help, "\n{}", in_columns(self.options, 10));
        }
        let parts = [self.more()]
            .into_iter()
            .chain(self.shared.iter().map(|part| part.text.to_string()));
        for part in parts.filter(|part| !part.is_empty()) {
            let _ = write!(help, "\n{part}");
        }
        format!("{help}\n{}", general())
    }
}

fn help() -> String {
    let commands = COMMANDS.map(|command| {
        let words = format!("{} {}", command.name, command.operands.join(" "));
        format!("  {words:26}{}\n", command.does)
    });
    format!(
        "\
SRCI payloads of compiled shaders: cards, listings, rows, public copies, sheets
usage: srci COMMAND ..; 'srci help COMMAND' tells more of each of these

{}
{}
{GENERAL}
{STATUSES_IN_SHORT}
",
        commands.concat(),
        in_columns(&GENERAL_OPTIONS, 26),
    )
}

fn general() -> String {
    format!("{GENERAL}\n\nExit status:\n{}", in_columns(&STATUSES, 3))
}

/// Words, each with what it means.
fn in_columns(words: &[(&str, &str)], width: usize) -> String {
    words
        .iter()
        .map(|(word, meaning)| format!("  {word:width$}{meaning}\n"))
        .collect()
}

/// The word that was meant, where one is like the word that was given.
fn meant<'a>(given: &OsStr, words: impl Iterator<Item = &'a str>) -> String {
    let given = given.to_string_lossy();
    let near = words.map(|word| (distance(&given, word), word)).min();
    match near {
        Some((steps, word)) if steps <= 2 && steps < word.trim_start_matches('-').len() / 2 + 1 => {
            format!("; did you mean '{word}'?")
        }
        _ => String::new(),
    }
}

/// How many letters must be put in, left out or exchanged to make one word of another.
fn distance(one: &str, other: &str) -> usize {
    let other: Vec<char> = other.chars().collect();
    let mut steps: Vec<usize> = (0..=other.len()).collect();
    // a word of the command line can be long, and one like ours is not
    for (row, letter) in one.chars().take(40).enumerate() {
        let mut before = steps[0];
        steps[0] = row + 1;
        for (column, with) in other.iter().enumerate() {
            let changed = before + usize::from(letter != *with);
            before = steps[column + 1];
            steps[column + 1] = changed.min(before + 1).min(steps[column] + 1);
        }
    }
    steps[other.len()]
}
