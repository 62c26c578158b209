//! The words behind the name of a command: files, options and what is behind each option.

use std::ffi::{OsStr, OsString};

use parts::letters::shown;
use system::parted;

/// The file that a command writes; every command takes it.
pub const OUTPUT: &str = "-o";
/// The switch that lets an output replace any file; every command takes it.
pub const FORCE: &str = "--force";
/// The switch that asks for a table, and the option that is needed without it.
pub const START_TABLE: &str = "--start-table";
pub const TABLE: &str = "--tips";
/// A word of this name may be typed behind `-o` instead.
const OUT: &str = "OUT";

/// One thing that can be typed behind the name of a command.
pub struct Typed {
    /// As `FILE`, or an option, as `--tips`.
    pub name: &'static str,
    /// What follows an option, as `TABLE`; nothing for a switch.
    pub value: Option<&'static str>,
    pub is_needed: bool,
    /// Whether more words of this kind may follow.
    pub is_repeated: bool,
}

impl Typed {
    /// What a line as `FILE.. --tips TABLE [--force]` says, with what every command takes.
    pub fn of(line: &'static str) -> Vec<Typed> {
        let mut words = line.split_whitespace();
        let mut typed = Vec::new();
        while let Some(word) = words.next() {
            let bare = word.trim_matches(['[', ']']);
            let is_switch = word.starts_with("[-") && word.ends_with(']');
            let value = if bare.starts_with('-') && !is_switch { words.next() } else { None };
            typed.push(Typed {
                name: bare.trim_end_matches(".."),
                value: value.map(|value| value.trim_end_matches(']')),
                is_needed: !word.starts_with('['),
                is_repeated: bare.ends_with(".."),
            });
        }
        typed.push(Typed { name: OUTPUT, value: Some(OUT), is_needed: false, is_repeated: false });
        typed.push(Typed { name: FORCE, value: None, is_needed: false, is_repeated: false });
        typed
    }

    pub fn is_option(&self) -> bool {
        self.name.starts_with('-')
    }
}

/// The words that were typed, sorted by what they are.
pub struct Arguments {
    files: Vec<OsString>,
    /// Each option with what is behind it, nothing behind a switch.
    options: Vec<(&'static str, OsString)>,
}

impl Arguments {
    /// Sorts the words behind the name of a command, or says what is wrong with them.
    pub fn of(command: &str, typed: &[Typed], words: &[OsString]) -> Result<Arguments, String> {
        let mut arguments = Arguments { files: Vec::new(), options: Vec::new() };
        let mut rest = words.iter();
        while let Some(word) = rest.next() {
            // A word with two dashes is never a file, so that a mistyped option is not taken for one.
            let (name, behind) = parted(word);
            if !word.as_encoded_bytes().starts_with(b"--") && name != OUTPUT {
                arguments.files.push(word.clone());
                continue;
            }
            let Some(option) = typed.iter().find(|typed| typed.is_option() && name == typed.name) else {
                return Err(format!("parts {command} has no option {}", shown(name)));
            };
            if arguments.option(option.name).is_some() {
                return Err(format!("{} stands twice; name it once", option.name));
            }
            let value = match (option.value, behind) {
                (None, None) => OsStr::new(""),
                (None, Some(_)) => return Err(format!("{} takes nothing behind it", option.name)),
                (Some(_), Some(value)) => value,
                (Some(value), None) => {
                    let next = rest.next().filter(|next| !next.as_encoded_bytes().starts_with(b"--"));
                    next.ok_or_else(|| format!("{} needs {value} behind it", option.name))?
                }
            };
            arguments.options.push((option.name, value.into()));
        }
        arguments.counted(typed)
    }

    /// The arguments themselves, where no word is missing and none is too many.
    fn counted(mut self, typed: &[Typed]) -> Result<Arguments, String> {
        let files: Vec<&Typed> = typed.iter().filter(|typed| !typed.is_option()).collect();
        if let (Some(OUT), Some(output)) = (files.get(self.files.len()).map(|file| file.name), self.option(OUTPUT)) {
            self.files.push(output.into());
        }
        let is_repeated = files.last().is_some_and(|file| file.is_repeated);
        if let Some(word) = self.files.get(files.len()).filter(|_| !is_repeated) {
            let job = typed.iter().find(|typed| typed.name == "--job");
            let instead =
                job.map_or(String::new(), |job| format!("; write the job file with {} {}", job.name, shown(word)));
            return Err(format!("`{}` is a word too many{instead}", shown(word)));
        }
        let missing_file = files.into_iter().skip(self.files.len()).find(|file| file.is_needed);
        let is_needed = |typed: &Typed| typed.is_needed && !(typed.name == TABLE && self.has(START_TABLE));
        let is_missing = |typed: &&Typed| typed.is_option() && is_needed(typed) && self.option(typed.name).is_none();
        match missing_file.or_else(|| typed.iter().find(is_missing)) {
            None => Ok(self),
            Some(missing) => Err(match missing.value {
                None => format!("{} is missing", missing.name),
                Some(value) => format!("{} {value} is missing", missing.name),
            }),
        }
    }

    /// The files, and other words that are no option, in their order.
    pub fn files(&self) -> Vec<&OsStr> {
        self.files.iter().map(OsString::as_os_str).collect()
    }

    /// What is behind an option, where it was typed.
    pub fn option(&self, name: &str) -> Option<&OsStr> {
        self.options.iter().find(|(typed, _)| *typed == name).map(|(_, value)| value.as_os_str())
    }

    pub fn has(&self, switch: &str) -> bool {
        self.option(switch).is_some()
    }
}
