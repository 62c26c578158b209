//! The commands, with what is typed and what each does.

use std::ffi::OsString;

use crate::arguments::{Arguments, Typed};
use crate::commands::{self, print, Failure};

/// A command of the program.
pub struct Command {
    pub name: &'static str,
    /// What is typed behind its name, with brackets around what may be left out.
    arguments: &'static str,
    /// What it does, in short lines for the page of all commands.
    does: &'static str,
    /// The rest of its own page.
    more: &'static str,
    /// What someone may type.
    example: &'static str,
    run: fn(&Arguments) -> Result<(), Failure>,
}

/// The commands, in the order of the page.
pub const COMMANDS: [Command; 19] = [
    Command {
        name: "import kicad",
        arguments: "POS --tips TABLE [--side SIDE] [--start-table]",
        does: "print the parts list of a KiCad position file, CSV or text",
        more: "Placements of equal package and value are one part, with its quantity; it is named by its first reference.\n\
               Package, value and references are its comment.\n\
               TABLE is a parts list with patterns for names, as R_0402* height=0.4 : 0-1, for the packages. A * matches\n\
               any letters, a ? matches one. The first row that matches counts; its columns, fine, tall and at= go to\n\
               the list. A line `skip Fiducial*` leaves packages out, `skip value DNP` values. If no row matches a\n\
               package, it prints all these packages, and no list.\n\
               SIDE is top, bottom or both; it may be left out if the file has one side.\n\
               --start-table prints a table to begin with instead, a row for each package; with TABLE the rows that it\n\
               lacks. Then TABLE may be left out.\n",
        example: "parts import kicad board-top.csv --tips tips.txt > board.txt",
        run: commands::import_kicad,
    },
    Command {
        name: "import openpnp",
        arguments: "PACKAGES BOARD [--parts PARTS] [--rack TIPS] [--side SIDE]",
        does: "print the parts list of an OpenPnP board, with its packages' nozzle tips",
        more: "PACKAGES is OpenPnP's packages.xml, BOARD a board file of it, PARTS its parts.xml. Placements of one part\n\
               are one part of the list, with its quantity and, from PARTS, its height. Without PARTS the package is the\n\
               one that begins the id of the part, as R0402 begins R0402-10k.\n\
               TIPS are the ids of the nozzle tips from tip 0 on, as TIP1,TIP2,-,TIP4, with - for an empty place. Without\n\
               it the rack has all tips that PACKAGES names, in their order there; best plans need tips in the order of\n\
               their size. Fiducials and placements that are not enabled are left out, which the list says.\n\
               SIDE is top, bottom or both; it may be left out where the board is of one side.\n",
        example: "parts import openpnp packages.xml board.board.xml --parts parts.xml > board.txt",
        run: commands::import_openpnp,
    },
    Command {
        name: "import csv",
        arguments: "CSV --tips TABLE --columns COLUMNS [--side SIDE] [--start-table]",
        does: "print the parts list of any file with columns, as a bill of materials",
        more: "The first row names the columns; they are separated by commas, semicolons or tabs. COLUMNS says which of\n\
               them are read, by name or by number, counted from 1: ref= and package=, and where there are such value=,\n\
               side= and quantity=. A field may have several references, as R1, R2 or R1-R4; each is a placement. A\n\
               quantity is for rows that name one reference or none.\n\
               TABLE, SIDE and --start-table are as for `parts import kicad`.\n",
        example: "parts import csv bom.csv --tips tips.txt --columns ref=Designator,package=Footprint > board.txt",
        run: commands::import_csv,
    },
    Command {
        name: "make",
        arguments: "LIST",
        does: "write the job file of a parts list to standard output",
        more: "Line i of the job file, counted from 0, is part i of the list. The file is of version 1 where every\n\
               part is placed once, and of version 2 where some quantity is not 1, as in R1 x10 : 0-1.\n",
        example: "parts make board.txt > board.job",
        run: commands::make,
    },
    Command {
        name: "show",
        arguments: "JOB",
        does: "print a job file as a parts list",
        more: "A job file has no names: each part is named by its line number, counted from 0.\n\
               A quantity other than 1 follows it, as in 0 x10 : 0-1.\n",
        example: "parts show board.job > shown.txt",
        run: commands::show,
    },
    Command {
        name: "sort",
        arguments: "COLUMN LIST",
        does: "print a parts list sorted by a column, as height",
        more: "The lowest number comes first, and parts with equal numbers stay in their order.\n\
               `parts sort quantity LIST` sorts by how often each part is placed.\n",
        example: "parts sort height board.txt > by-height.txt",
        run: commands::sort,
    },
    Command {
        name: "keep",
        arguments: "K FILE [--job JOB] [--list LIST]",
        does: "print which parts lose tips when at most K placements are off the most used tip,\n\
               and write what is left as the job file JOB and as the parts list LIST",
        more: "A tip is struck from a part where no plan within K has the part on that tip. A part has all its\n\
               placements on one tip. The list written has the names, quantities, columns and comments of the list\n\
               read; from a job file it has line numbers for names.\n\
               JOB replaces a job file of its name; a file of LIST's name is only replaced with --force, FILE never.\n",
        example: "parts keep 3 board.txt --list kept.txt",
        run: commands::keep,
    },
    Command {
        name: "goal",
        arguments: "K FILE [--job JOB] [--list LIST]",
        does: "print which parts lose tips when a plan has to have K pairs at least,\n\
               and write what is left as the job file JOB and as the parts list LIST",
        more: "A tip is struck from a part where no plan with K pairs or more has the part on that tip, a pair being\n\
               two placements on one tip. With K 0 nothing is struck; with the pairs of the best plan, which are\n\
               printed, only the tips of best plans are left.\n\
               It takes the lists that have a best plan. What is left may have gaps; where it has no best plan any\n\
               more, the last line says which part has a gap.\n\
               JOB replaces a job file of its name; a file of LIST's name is only replaced with --force, FILE never.\n",
        example: "parts goal 12 board.txt --list kept.txt",
        run: commands::goal,
    },
    Command {
        name: "plan",
        arguments: "FILE [--mounted T] [--price P] [--fewest-tips] [--in-order] [--in-placing-order] [--format FORMAT] [--plan PLAN]",
        does: "print the quick and the best plan, part by part, and a table of both;\n\
               tip T, which is on the head, wins where tips suit equally;\n\
               --price and --fewest-tips add an exact plan, with a price P for each tip;\n\
               --in-order and --in-placing-order add a plan with the fewest tip changes in that order;\n\
               with a FORMAT one plan for other programs, a row for each reference designator",
        more: "Quick takes every list. Best has the most pairs of all plans, a pair being two placements on one tip;\n\
               it takes lists in which each part has every tip between its lowest and its highest, but for tips that\n\
               no part of the list has. If a part has a gap, it is named with an order of the rack that helps, if\n\
               there is one, and the exact plan takes the place of the best one.\n\
               Exact takes any list that names 20 tips at most. No plan has more pairs. With a price, no plan has more\n\
               pairs less P for each tip that it uses: the higher P, the fewer tips. --fewest-tips is the highest P: no\n\
               plan has fewer tips, and none of as few has more pairs.\n\
               A quantity other than 1 follows the name, as x10; then parts and placements are counted.\n\
               If several tips suit equally, the lowest is taken, or T if it is one of them. The pairs of the best plan\n\
               are the same with every T, those of the quick plan may be others.\n\
               The table has the pairs of each plan, the tips that it uses, and its tip changes where the parts are\n\
               placed in the order of the list: one wherever a part is on another tip than the one before it, and\n\
               with a T one before the first part if that is on another tip. The last column has the changes in the\n\
               order by tips, which `parts order --tips` prints. A list without fine, tall, at= and rules has that\n\
               order even if it has more than 128 parts.\n\
               --in-order adds a plan, called along: no plan has fewer tip changes in the order of the list.\n\
               --in-placing-order adds the plan with the fewest in the order that `parts order` prints.\n\
               FORMAT is text, csv or json. It prints one plan: the one along an order or with a price if you ask for it,\n\
               else the first that exists of best, exact and quick. Each reference designator that an import wrote into\n\
               the comments has a row, else each part. PLAN is quick, best or exact. `parts check` reads each format.\n",
        example: "parts plan board.txt --mounted 3",
        run: commands::plan,
    },
    Command {
        name: "check",
        arguments: "LIST PLAN",
        does: "check a plan from other software, and compare its pairs with the best plan's;\n\
               PLAN is a text with its pairs and a tip for each part, and may have a table",
        more:
            "As text, PLAN begins with `pairs N`, the number of pairs that it claims. Then each part has a line with its\n\
               tip, as C1 : 3, in any order; : 3 is for the next part without a name. Below a line `table` its table may\n\
               follow: for a rack of M, M rows of M numbers.\n\
               Each part must be on a tip of its own, the pairs must be those of the plan, and the table must show\n\
               that no plan has more. Without a table it checks only the first two, and says so.\n\
               As CSV, PLAN has a column tip and a column reference or part, as JSON a list `placements` with them. A\n\
               reference is one in the comment of a part, as an import writes it.\n",
        example: "parts check board.txt plan.txt",
        run: commands::check,
    },
    Command {
        name: "compare",
        arguments: "FILE FILE",
        does: "print what differs from one parts list, job file or table of tips to another,\n\
               and what that changes of the plans",
        more: "Parts are compared by their names, those without a name and those of job files by their lines: tips,\n\
               quantity, columns and words. Then come the pairs of both plans, and each part that has another tip.\n\
               A file with patterns or a line `skip` is a table of tips; its rows are compared, and their order.\n",
        example: "parts compare old.txt new.txt",
        run: commands::compare,
    },
    Command {
        name: "junior",
        arguments: "FILE",
        does: "print a plan for the Junior, which carries two tips at once: the tips of its holders,\n\
               and the tip of each part",
        more: "The plan has the most pairs of all plans with one tip or two, a pair being two placements on one tip.\n\
               Where several choices of tips have as many, the lowest first tip is taken, then the lowest second.\n\
               Parts that both tips can pick are all on the one that gives more pairs, on the lower where that is equal.\n\
               It takes lists of 64 parts and 8 tips at most.\n",
        example: "parts junior board.txt",
        run: commands::junior,
    },
    Command {
        name: "panel",
        arguments: "FILE FILE.. [--job JOB] [--list LIST]",
        does: "put boards on one panel: plan each alone and all together, part by part,\n\
               and write the panel as the job file JOB and as the parts list LIST",
        more: "The panel has the parts of the first board, then those of the second, and so on; all have one rack. A\n\
               board alone is planned by the quick rule, whatever its rack. Behind each part stand its tip alone and\n\
               its tips in the quick and the best plan of the panel. A file may be named several times. In LIST R1-2\n\
               is R1 of the second board; positions as at=3 are left out.\n\
               Where the racks differ, or all boards are too many lines or placements, each board is planned alone,\n\
               and the panel is refused.\n\
               JOB replaces a job file of its name, another file only with --force, and never a FILE.\n",
        example: "parts panel left.txt right.txt --job panel.job",
        run: commands::panel,
    },
    Command {
        name: "mend",
        arguments: "JOB OUT",
        does: "mend a job file that came back damaged, write what is left of it as the job file OUT,\n\
               and print each change with its line",
        more: "Mark, version and rack size in the first 8 bytes must be good; the rest may be anything.\n\
               It clears tips outside the rack, drops lines without a tip, makes a quantity of 0 a 1, and drops the\n\
               first line with which there are over 2,048 placements, with all after it. It also reports missing lines\n\
               and bytes that follow. If parts are lost, it prints how many and exits 3. Line numbers are those of JOB,\n\
               counted from 0.\n\
               OUT is of the same version, every command takes it, and mending it again changes nothing. OUT replaces\n\
               a job file of its name, another file only with --force, and never JOB.\n",
        example: "parts mend card.job mended.job && parts plan mended.job",
        run: commands::mend,
    },
    Command {
        name: "order",
        arguments: "LIST [--tips PLAN] [--mounted T] [--price P] [--fewest-tips]",
        does: "print the order in which the parts are placed: fine ones first, tall ones last;\n\
               with a PLAN the order by its tips: next comes a part on the same tip, if one may be next",
        more:
            "The words fine and tall stand behind a part's name, and at=0-3 where it has only the positions 0 to 3,\n\
               counted from 0; at=2 is one position. A line `before R1 U1` has R1 placed before U1. A part has one\n\
               position, whatever its quantity; 128 parts have an order at most.\n\
               A fine part comes before each part that is not fine, and a part that is not tall before each tall one.\n\
               Of a part that is both only tall counts.\n\
               Of all orders that obey, the one is printed that has the first part of the list at position 0 where it\n\
               can be, else the second, and so on; then the same for position 1.\n\
               Where no order obeys, it is told which parts stand in each other's way.\n\
               PLAN is quick, best or exact; P and --fewest-tips are for the exact plan, as in `parts plan`. Each part is\n\
               on its tip of this plan. A part on the tip of the part before it comes before any other part that may be\n\
               next, at position 0 a part on tip T, which is on the head; of several the first of the list. So the tip is\n\
               changed only where every order that obeys and begins alike changes it. The second line has the number\n\
               of changes in the order printed.\n",
        example: "parts order board.txt --tips best",
        run: commands::order,
    },
    Command {
        name: "windows",
        arguments: "LIST",
        does: "print the first and the last position that each part can have in the placing order",
        more: "They are exact: some order that obeys the positions, words and rules of the list has the part at its first\n\
               position, and none has it earlier; likewise the last one. A position between them may be impossible, for\n\
               instance if another part must have it. If no order obeys, it says which parts are in each other's way.\n",
        example: "parts windows board.txt",
        run: commands::windows,
    },
    Command {
        name: "picture",
        arguments: "FILE",
        does: "print a drawing of both plans, parts against tips, as SVG",
        more: "Beside the name of each part are its quantity, if that is not 1, and its comment.\n",
        example: "parts picture board.txt > board.svg",
        run: commands::picture,
    },
    Command {
        name: "page",
        arguments: "FILE [--keep K]",
        does: "print a page with the drawing of both plans and of the tips that a keep leaves,\n\
               a table of the parts, and tips used and changes, as HTML",
        more: "The page needs no network and prints well; a click on the name of a column sorts by it.\n\
               K is the bound of the keep; without it the least one. The page says what is refused, and why.\n",
        example: "parts page board.txt > plan.html",
        run: commands::page,
    },
    Command {
        name: "completion bash",
        arguments: "",
        does: "print what has bash complete the commands and options of parts",
        more: "Files of the current folder are completed as ever.\n\
               For every new shell: parts completion bash > ~/.local/share/bash-completion/completions/parts\n",
        example: "source <(parts completion bash)",
        run: commands::completion,
    },
];

const FILES: &str =
    "LIST is a parts list, JOB a job file, FILE either one, - standard input; -o OUT writes to the file OUT.\n";

/// The widest line to be typed that has what it does beside it.
const BESIDE: usize = 37;

impl Command {
    /// The command that these words begin with, and how many words are behind its name.
    pub fn of(words: &[&str]) -> Option<(&'static Command, usize)> {
        COMMANDS.iter().find_map(|command| {
            let length = command.name.split(' ').count();
            let is_named = words.len() >= length && command.name.split(' ').eq(words[..length].iter().copied());
            is_named.then(|| (command, words.len() - length))
        })
    }

    /// Does what the command does, or prints its page where that is asked for.
    pub fn run(&self, words: &[OsString]) -> Result<(), Failure> {
        if words.iter().any(|word| word.to_str().is_some_and(is_help)) {
            return print(self.page().as_bytes());
        }
        let arguments = Arguments::of(self.name, &Typed::of(self.arguments), words)
            .map_err(|what| Failure::Argument(format!("{what}\n{}", self.usage())))?;
        (self.run)(&arguments)
    }

    /// The options that may be typed behind its name.
    pub fn options(&self) -> Vec<&'static str> {
        Typed::of(self.arguments).iter().filter(|typed| typed.is_option()).map(|typed| typed.name).collect()
    }

    fn typed(&self) -> String {
        format!("parts {} {}", self.name, self.arguments).trim_end().into()
    }

    /// What to type, after wrong arguments.
    pub fn usage(&self) -> String {
        format!("usage: {}\n`parts {} --help` says more", self.typed(), self.name)
    }

    /// The page of this command.
    pub fn page(&self) -> String {
        format!("{}\n{}\n\n{}Example: {}\n{FILES}", self.typed(), self.does, self.more, self.example)
    }
}

/// Whether a word asks for help.
pub fn is_help(word: &str) -> bool {
    matches!(word, "--help" | "-h")
}

/// What to type where a word begins several commands; nothing where it begins none.
pub fn usages_of(word: &str) -> String {
    let begins = |command: &&Command| command.name.split(' ').next() == Some(word);
    COMMANDS.iter().filter(begins).map(|command| command.usage() + "\n").collect()
}

/// The page of all commands.
pub fn page() -> String {
    let mut page = concat!(env!("CARGO_PKG_DESCRIPTION"), ".\n\n").to_string();
    for command in &COMMANDS {
        let mut left = command.typed();
        if left.len() > BESIDE {
            page += &format!("{left}\n");
            left.clear();
        }
        for line in command.does.lines() {
            page += &format!("{left:width$}{line}\n", width = BESIDE + 2);
            left.clear();
        }
    }
    page += "\nExamples:\n";
    for command in &COMMANDS {
        page += &format!("{}\n", command.example);
    }
    page + "\n" + FILES + ENDS
}

const ENDS: &str = "\
-o OUT writes what a command makes to the file OUT: what it prints, for keep, goal and panel the job file JOB.
A job file replaces a job file of its name. Any other existing file is replaced only with --force.
Exit 0: done. Exit 1: a file was refused, or could not be read or written. Exit 2: wrong arguments.
Exit 3: a file was mended, and parts are lost.
`parts COMMAND --help` says more of a command, `parts --version` names the version.
";
