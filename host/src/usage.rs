//! What is wrong with what was typed, in a sentence.

use std::error::Error as _;
use std::ffi::OsString;

use clap::error::{ContextKind, ContextValue, Error, ErrorKind};
use clap::{Command, CommandFactory as _, Parser as _};

use crate::arguments::{Arguments, Parsed};
use crate::failure::shown;

/// Help and version, to be printed, or what is wrong. The first word is the
/// command.
pub fn told(error: &Error, all: &Command, first: Option<&OsString>) -> Result<Parsed, String> {
    let tell = |text: String| Ok(Parsed::Tell(text));
    match error.kind() {
        ErrorKind::DisplayHelp => tell(error.render().to_string()),
        ErrorKind::DisplayVersion => tell(all.render_version()),
        ErrorKind::DisplayHelpOnMissingArgumentOrSubcommand | ErrorKind::MissingSubcommand => {
            Err("no command".to_string())
        }
        _ => {
            let first = first.map(|word| word.to_string_lossy().into_owned());
            Err(wrong(error, all, &first.unwrap_or_default()))
        }
    }
}

/// The first word, behind a space, if it is a command, of which help can be asked.
pub fn command(first: Option<OsString>) -> String {
    let all = Arguments::command();
    let first = first.and_then(|word| word.into_string().ok());
    let command = first.filter(|word| all.find_subcommand(word).is_some());
    command.map_or_else(String::new, |command| format!(" {command}"))
}

fn wrong(error: &Error, all: &Command, command: &str) -> String {
    let value = |kind| context(error, kind).unwrap_or_default();
    let argument = value(ContextKind::InvalidArg);
    // `--block <K>`, `<OBJECT>`, `[OBJECT]`
    let name = argument.split(' ').next().unwrap_or_default();
    let name = name.trim_matches(['<', '>', '[', ']']);
    let typed = value(ContextKind::InvalidValue);
    let is_missing = typed.is_empty();
    let typed = shown(typed.as_ref());
    match error.kind() {
        ErrorKind::InvalidSubcommand => {
            let none = value(ContextKind::InvalidSubcommand);
            // behind help clap suggests nothing
            let alone = Arguments::try_parse_from(["lohenarr", &none]).err();
            let nearest = alone.and_then(|error| nearest(&error, ContextKind::SuggestedSubcommand));
            with_nearest(
                format!("there is no command {}", shown(none.as_ref())),
                nearest,
            )
        }
        ErrorKind::UnknownArgument if argument.starts_with('-') => {
            let nearest = nearest(error, ContextKind::SuggestedArg);
            no_option(all, command, name, nearest)
        }
        ErrorKind::InvalidValue if is_missing => format!("{name} wants a value behind it"),
        ErrorKind::InvalidValue => {
            let values = value(ContextKind::ValidValue);
            format!("{name} is one of {values}; {typed} is not")
        }
        ErrorKind::ValueValidation => {
            let what = error.source().map(|source| source.to_string());
            format!("{name} is {}; {typed} is not", what.unwrap_or_default())
        }
        ErrorKind::ArgumentConflict => format!("{name} is given twice"),
        ErrorKind::InvalidUtf8 => "a number or a layout is typed in plain letters".to_string(),
        _ => form(all, command),
    }
}

/// What clap says of an error, as text.
fn context(error: &Error, kind: ContextKind) -> Option<String> {
    match error.get(kind)? {
        ContextValue::Strings(all) => Some(all.join(", ")),
        one => Some(one.to_string()),
    }
}

/// The nearest of what clap suggests: it has that last.
fn nearest(error: &Error, kind: ContextKind) -> Option<String> {
    match error.get(kind)? {
        ContextValue::Strings(all) => all.last().cloned(),
        one => Some(one.to_string()),
    }
}

/// An option that no command has, or this one has not.
fn no_option(all: &Command, command: &str, option: &str, nearest: Option<String>) -> String {
    let mut commands: Vec<&str> = all
        .get_subcommands()
        .filter(|command| command.get_arguments().any(|one| names(one, option)))
        .map(Command::get_name)
        .collect();
    let Some(last) = commands.pop() else {
        let none = format!("there is no option {option}");
        return match option.starts_with("--") {
            true => with_nearest(none, nearest),
            false => format!("{none}; if it is a name, put -- before it"),
        };
    };
    if command.starts_with('-') {
        return format!("{option} goes behind the command");
    }
    if commands.is_empty() {
        return format!("{command} has no option {option}, which goes with {last} alone");
    }
    let others = commands.join(", ");
    format!("{command} has no option {option}, which goes with {others} and {last}")
}

/// Whether an argument is the option of this name.
fn names(argument: &clap::Arg, option: &str) -> bool {
    let long = argument.get_long().map(|long| format!("--{long}"));
    let short = argument.get_short().map(|short| format!("-{short}"));
    long.as_deref() == Some(option) || short.as_deref() == Some(option)
}

fn with_nearest(sentence: String, nearest: Option<String>) -> String {
    match nearest {
        Some(nearest) => format!("{sentence}; the nearest is {nearest}"),
        None => sentence,
    }
}

/// How a command is typed.
fn form(all: &Command, name: &str) -> String {
    let command = all.find_subcommand(name);
    let words = command.into_iter().flat_map(Command::get_positionals);
    let words = words.map(|word| {
        let name = word.get_id().as_str().to_uppercase();
        match word.is_required_set() {
            true => format!(" {name}"),
            false => format!(" [{name}]"),
        }
    });
    let options = command.into_iter().flat_map(Command::get_opts);
    let options = options.filter(|option| option.is_required_set());
    let options = options.map(|option| {
        let value = option.get_value_names().and_then(<[_]>::first);
        let (long, value) = (option.get_long(), value.map(|value| value.as_str()));
        format!(
            " --{} {}",
            long.unwrap_or_default(),
            value.unwrap_or_default()
        )
    });
    let words: String = words.chain(options).collect();
    format!("{name} is typed as: {name}{words}")
}
