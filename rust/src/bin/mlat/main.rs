//! `mlat`: the proved library for people and for pipelines. It decides nothing that the library could: it reads bytes,
//! lends them, and says or writes what comes back. One line on standard error for a fault, and an exit status.

mod archive;
mod args;
mod asterix;
mod check;
mod closed;
mod counts;
mod crew;
mod decimal;
mod fault;
mod folder;
mod found;
mod frames;
mod input;
mod json;
mod many;
mod names;
mod near;
mod output;
mod pack;
mod patterns;
mod progress;
mod receivers;
mod records;
mod rows;
mod rules;
mod search;
mod show;
mod skipped;
mod solve;
mod spool;
mod why;
mod words;

use std::ffi::OsString;
use std::process::ExitCode;

use fault::Fault;

/// A command of `mlat`.
struct Command {
    name: &'static str,
    /// What it does, for the list of commands.
    does: &'static str,
    /// What `mlat COMMAND --help` prints: the usage first.
    help: &'static str,
    run: fn(&[OsString]) -> Result<(), Fault>,
}

/// In the order in which `mlat --help` lists them.
const COMMANDS: [Command; 12] = [
    Command {
        name: "solve",
        does: "the fix of one problem, or why there is none",
        help: solve::HELP,
        run: solve::solve,
    },
    Command {
        name: "why",
        does: "of each receiver of a problem whether the fix uses it, and why not",
        help: why::HELP,
        run: why::why,
    },
    Command {
        name: "many",
        does: "a stream of problems to records, by all cores; or its receivers",
        help: many::HELP,
        run: many::many,
    },
    Command {
        name: "pack",
        does: "folders as a stream of problems",
        help: pack::HELP,
        run: pack::pack,
    },
    Command {
        name: "show",
        does: "one record of a file in words",
        help: show::HELP,
        run: show::show,
    },
    Command {
        name: "records",
        does: "count the records of a file, or list them as CSV or JSON",
        help: records::HELP,
        run: records::records,
    },
    Command {
        name: "near",
        does: "the fixes of a file near a place",
        help: near::HELP,
        run: near::near,
    },
    Command {
        name: "archive",
        does: "move a file of records to the archive's form",
        help: archive::ARCHIVE_HELP,
        run: archive::archive,
    },
    Command {
        name: "unarchive",
        does: "and back",
        help: archive::UNARCHIVE_HELP,
        run: archive::unarchive,
    },
    Command {
        name: "asterix",
        does: "write the fixes of a file as items of ASTERIX category 020",
        help: asterix::HELP,
        run: asterix::asterix,
    },
    Command {
        name: "check",
        does: "what is wrong with a file of records",
        help: check::HELP,
        run: check::check,
    },
    Command {
        name: "patterns",
        does: "what the screen leaves of small sets of receptions",
        help: patterns::HELP,
        run: patterns::patterns,
    },
];

const HELP: &str = "\
usage: mlat COMMAND ..

Where an aircraft was, from the arrival times of its transmission at several receivers.
";

const STATUSES: &str = "
`mlat COMMAND --help` says how each is called. `-` in the place of a file is standard input or output.
Exit status: 0 done; 1 a refusal; 2 a wrong call; 3 torn or malformed input; 4 cannot read; 5 cannot write.
";

fn main() -> ExitCode {
    let words: Vec<OsString> = std::env::args_os().skip(1).collect();
    match run(&words) {
        Ok(()) => ExitCode::SUCCESS,
        Err(fault) => {
            if let Some(line) = fault.line() {
                progress::say(&line);
            }
            ExitCode::from(fault.status())
        }
    }
}

fn run(words: &[OsString]) -> Result<(), Fault> {
    let Some(first) = words.first() else {
        return Err(Fault::Call("no command is named: `mlat --help` lists them".to_string()));
    };
    match first.to_str() {
        Some("--help" | "-h" | "help") => print_help(words.get(1)),
        Some("--version" | "-V") => print_version(),
        _ => {
            let command = named(first)?;
            match args::asks(&words[1..]) {
                Some(args::Asks::Help) => output::say(command.help),
                Some(args::Asks::Version) => print_version(),
                None => (command.run)(&words[1..]),
            }
        }
    }
}

fn named(word: &OsString) -> Result<&'static Command, Fault> {
    COMMANDS.iter().find(|command| word == command.name).ok_or_else(|| {
        Fault::Call(format!(
            "there is no command {}: `mlat --help` lists them",
            word.display()
        ))
    })
}

fn print_help(of: Option<&OsString>) -> Result<(), Fault> {
    if let Some(word) = of {
        return output::say(named(word)?.help);
    }
    let list: String = COMMANDS
        .iter()
        .map(|command| format!("  {:<11}{}\n", command.name, command.does))
        .collect();
    output::say(format!("{HELP}\n{list}{STATUSES}"))
}

/// The command's version, and that of the library that it is linked with.
fn print_version() -> Result<(), Fault> {
    let [major, minor, patch] = jifrosk::version();
    output::say(format!(
        "mlat {} (mlat_solver {major}.{minor}.{patch})\n",
        env!("CARGO_PKG_VERSION")
    ))
}
