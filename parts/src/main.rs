//! Turns text parts lists into job files and back, sorts them, and shows what the proved library says of them.

mod arguments;
mod commands;
mod completion;
mod help;

use std::env;
use std::ffi::OsString;
use std::io::{self, Write};
use std::process::ExitCode;

use commands::{close, print, Failure};
use help::Command;
use parts::letters::shown;

#[global_allocator]
static MEMORY: system::OrEnd = system::OrEnd;

fn main() -> ExitCode {
    let words: Vec<OsString> = env::args_os().skip(1).collect();
    let (why, status) = match run(&words).and_then(|()| close()) {
        Ok(()) => return ExitCode::SUCCESS,
        Err(Failure::Arguments) => (usage(&words), ExitCode::from(2)),
        Err(Failure::Argument(why)) => (why, ExitCode::from(2)),
        Err(Failure::Refused(why)) => (why, ExitCode::FAILURE),
        Err(Failure::Lost(why)) => (why, ExitCode::from(3)),
    };
    // Where standard error fails too, the exit status is all that can be told.
    let _ = writeln!(io::stderr(), "{why}");
    status
}

fn run(words: &[OsString]) -> Result<(), Failure> {
    // No command has a name that is not text.
    let names: Vec<&str> = words.iter().map(|word| word.to_str().unwrap_or_default()).collect();
    match names[..] {
        ["--help" | "-h" | "help"] => print(help::page().as_bytes()),
        ["--version"] => print(concat!("parts ", env!("CARGO_PKG_VERSION"), "\n").as_bytes()),
        ["help", ref name @ ..] => match Command::of(name) {
            Some((command, 0)) => print(command.page().as_bytes()),
            None if name.len() == 1 && !help::usages_of(name[0]).is_empty() => {
                print(help::usages_of(name[0]).as_bytes())
            }
            _ => Err(Failure::Arguments),
        },
        [name, word] if help::is_help(word) && Command::of(&names).is_none() && !help::usages_of(name).is_empty() => {
            print(help::usages_of(name).as_bytes())
        }
        _ => {
            let (command, behind) = Command::of(&names).ok_or(Failure::Arguments)?;
            command.run(&words[words.len() - behind..])
        }
    }
}

/// What to type instead of these words.
fn usage(words: &[OsString]) -> String {
    let names: Vec<String> = words.iter().map(shown).collect();
    let names: Vec<&str> = names.iter().map(String::as_str).collect();
    let names = names.strip_prefix(&["help"]).unwrap_or(&names);
    let Some(&name) = names.first() else {
        return help::page().trim_end().into();
    };
    if let Some((command, _)) = Command::of(names) {
        return command.usage();
    }
    match help::usages_of(name) {
        usages if usages.is_empty() => format!("parts has no command {name}; `parts --help` names its commands"),
        usages => usages.trim_end().into(),
    }
}
