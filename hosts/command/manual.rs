//! The page for `man`, and what bash completes words by: both are made from the commands' own texts.
use crate::arguments::GENERAL_OPTIONS;
use crate::commands::{COMMANDS, GENERAL, SHARED, STATUSES};
use srci::Refusal;
use std::fmt::Write;

/// The page, in the language of `man`'s formatter.
pub fn page() -> String {
    let mut page = format!(
        ".TH SRCI 1 \"\" \"srci {}\" \"\"\n.SH NAME\nsrci \\- SRCI payloads of compiled shaders: cards, \
         listings, rows, public copies, sheets\n.SH SYNOPSIS\n",
        srci::VERSION
    );
    for command in &COMMANDS {
        let _ = writeln!(page, ".B {}\n.br", roff(&command.usage()));
    }
    let others = GENERAL_OPTIONS.map(|(option, _)| option);
    for words in ["help COMMAND"].into_iter().chain(others) {
        let _ = writeln!(page, ".B srci {}\n.br", roff(words));
    }
    let _ = writeln!(page, ".SH COMMANDS");
    for command in &COMMANDS {
        let _ = writeln!(page, ".SS {}\n{}.", roff(command.name), roff(command.does));
        entries(&mut page, command.options);
        paragraphs(&mut page, &command.more());
    }
    let _ = writeln!(page, ".SH OPTIONS");
    entries(&mut page, &GENERAL_OPTIONS);
    paragraphs(&mut page, GENERAL);
    for part in SHARED {
        let _ = writeln!(page, ".SH {}", part.heading);
        paragraphs(&mut page, part.text);
    }
    let _ = writeln!(page, ".SH EXIT STATUS");
    entries(&mut page, &STATUSES);
    let _ = writeln!(page, ".SH REFUSALS");
    for refusal in Refusal::all() {
        let head = format!("{}, {}", refusal.number(), refusal.name());
        entries(&mut page, &[(head.as_str(), refusal.meaning())]);
    }
    page
}

/// Words, each with a text that stands beside it.
fn entries(page: &mut String, entries: &[(&str, &str)]) {
    for (head, text) in entries {
        let _ = writeln!(page, ".TP\n.B {}\n{}", roff(head), roff(text));
    }
}

/// A part of a help text: paragraphs, in which lines that begin with spaces stay lines.
fn paragraphs(page: &mut String, text: &str) {
    for paragraph in text.split("\n\n").filter(|paragraph| !paragraph.is_empty()) {
        let _ = writeln!(page, ".PP");
        for lines in paragraph
            .lines()
            .collect::<Vec<_>>()
            .chunk_by(|one, next| one.starts_with(' ') == next.starts_with(' '))
        {
            let as_they_are = lines[0].starts_with(' ');
            let (before, after) = if as_they_are {
                (".nf\n", ".fi\n")
            } else {
                ("", "")
            };
            let lines: String = lines
                .iter()
                .map(|line| format!("{}\n", roff(line)))
                .collect();
            let _ = write!(page, "{before}{lines}{after}");
        }
    }
}

/// A text in which nothing is a request or an escape.
fn roff(text: &str) -> String {
    let text = text.replace('\\', "\\e").replace('-', "\\-");
    match text.chars().next() {
        Some('.' | '\'') => format!("\\&{text}"),
        _ => text,
    }
}

/// A function of bash that completes commands, their options, and else files.
pub fn completion() -> String {
    let names = COMMANDS.map(|command| command.name).join(" ");
    let general = GENERAL_OPTIONS.map(|(option, _)| option).join(" ");
    let mut cases = String::new();
    for command in &COMMANDS {
        let options = command.options.iter().map(|(option, _)| *option);
        let options: Vec<&str> = options.chain(["--help"]).collect();
        let _ = writeln!(
            cases,
            "        {}) words='{}' ;;",
            command.name,
            options.join(" ")
        );
    }
    format!(
        "\
# Completes the words of srci in bash.
_srci() {{
    local words= word=${{COMP_WORDS[COMP_CWORD]}}
    COMPREPLY=()
    if ((COMP_CWORD == 1)); then
        words='{names} help {general}'
    elif [[ ${{COMP_WORDS[1]}} == help ]]; then
        words='{names}'
    elif [[ $word == -* ]]; then
        case ${{COMP_WORDS[1]}} in
{cases}        esac
    fi
    [[ -z $words ]] || COMPREPLY=($(compgen -W \"$words\" -- \"$word\"))
}}
complete -o default -F _srci srci
"
    )
}
