//! `srci`: SRCI payloads at a terminal. The jobs are those of the proved library; here are the words around them.
mod arguments;
mod commands;
mod edit;
mod facts;
mod failure;
mod files;
mod jobs;
mod manual;
mod memory;
mod old;
mod output;
mod parts;
mod place;
mod rows;
mod sheet;
mod system;
mod table;
mod text;

use arguments::Asked;
use failure::Failure;
use std::env;
use std::ffi::OsString;
use std::process::ExitCode;

fn main() -> ExitCode {
    let words: Vec<OsString> = env::args_os().skip(1).collect();
    match arguments::parse(&words).and_then(answer) {
        Ok(()) => ExitCode::SUCCESS,
        Err(failure) => {
            failure.tell();
            ExitCode::from(failure.status())
        }
    }
}

fn answer(asked: Asked) -> Result<(), Failure> {
    match asked {
        Asked::Sample => jobs::sample(),
        Asked::Text(text) => files::print(|out| out.write_all(text.as_bytes())),
        Asked::Command(call) => (call.command.run)(&call),
    }
}
