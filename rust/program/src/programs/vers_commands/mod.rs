//! The commands of the script `vers`: lines over structures and texts, and structures in files. The status is 0, or 1
//! after an error, or 2 if the arguments name no command; standard error has the reason.

use crate::rattle::prelude::*;

mod command;
mod files;
mod help;
mod lines;
mod progress;

use command::{Command, command_of, usage_of};
use crate::rattle::AllocError;
use crate::rattle::host::env;
use std::process::ExitCode;

pub fn main() -> ExitCode {
    let rt = HostRuntime;
    let words: Result<Vec<String>, AllocError> = match env::args(&rt) {
        Ok(arguments) => arguments.collect(rt.alloc()),
        Err(_) => return lines::fail(&rt, "the arguments can't be read"),
    };
    let Ok(words) = words else {
        return lines::fail(&rt, "out of memory");
    };
    match command_of(words.as_slice()) {
        Some(command) => run(&rt, command),
        None => refuse(&rt, words.as_slice()),
    }
}

// Prints what the command of some arguments takes, or that there is no such command.
fn refuse(rt: &HostRuntime, words: &[String]) -> ExitCode {
    if let [_, word, ..] = words {
        let _ = match usage_of(word.as_str()) {
            Some(usage) => crate::print_error!("vers: {usage}; vers --help lists the commands"),
            None => crate::print_error!("vers: unknown command {word:?}; vers --help lists the commands"),
        };
    }
    ExitCode::from(2)
}

fn run(rt: &HostRuntime, command: Command<'_>) -> ExitCode {
    match command {
        Command::Lines => lines::answer(rt),
        Command::TextLines => lines::answer_text(rt),
        Command::Save(path) => files::save(rt, path),
        Command::Ask(path) => files::answer(rt, path),
        Command::Text(path) => files::answer_text(rt, path),
        Command::Index {
            file,
            index,
            is_fasta,
        } => files::index(rt, file, index, is_fasta),
        Command::Show(path) => files::describe(rt, path),
        Command::Print(text) => lines::print(rt, text),
    }
}
