//! What has bash complete the words of a command.

use crate::help::COMMANDS;

/// The function for bash; CASES is replaced by what may follow the words that are typed.
const SCRIPT: &str = include_str!("completion.bash");

/// The text for bash.
pub fn bash() -> String {
    let mut names: Vec<&str> = COMMANDS.iter().filter_map(|command| command.name.split(' ').next()).collect();
    // Commands with one first word stand together.
    names.dedup();
    let all = names.join(" ");
    let mut cases = format!("    ' ') words='{all} help --help --version' ;;\n    'help ') words='{all}' ;;\n");
    for name in names {
        let second = |command: &'static str| command.strip_prefix(name)?.strip_prefix(' ');
        let seconds: Vec<&str> = COMMANDS.iter().filter_map(|command| second(command.name)).collect();
        if !seconds.is_empty() {
            cases += &format!("    '{name} ' | 'help {name} ') words='{}' ;;\n", seconds.join(" "));
        }
    }
    for command in &COMMANDS {
        let options = [&command.options()[..], &["--help"]].concat().join(" ");
        cases += &format!("    '{} '*) words='{options}' is_option=yes ;;\n", command.name);
    }
    SCRIPT.replace("CASES\n", &cases)
}
