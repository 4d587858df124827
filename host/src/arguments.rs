//! What is typed: a command, its dump, its arguments and its options.

use std::ffi::OsString;

use clap::{Args, CommandFactory, Parser, Subcommand};
use clap_complete::Shell;

use crate::paths::Named;
use crate::script::request::FORMS;
use crate::typed::{self, Typed};
use crate::usage;

/// Reads raw NAND dumps under YAFFS2.
#[derive(Debug, Parser)]
#[command(name = "lohenarr", version, propagate_version = true, after_help = NOTES)]
pub struct Arguments {
    #[command(subcommand)]
    pub command: Command,
}

const NOTES: &str = "\
To begin with: lohenarr tree DUMP, then lohenarr certify DUMP /PATH.

A command is followed by DUMP, a file that is opened read-only, or - for standard
input, and compare by two. Numbers are decimal, or hexadecimal with 0x. An object is
named by its id, or by its path, as tree prints it. A refusal prints refusal=N and
ends with status 1; bad usage and files that fail end with status 2.
`lohenarr help COMMAND` has the options of a command.
";

#[derive(Debug, Subcommand)]
pub enum Command {
    /// Layout, page kinds and objects, in ten lines
    Report {
        #[command(flatten)]
        on: On,
    },
    /// The layout
    Find {
        #[command(flatten)]
        source: Source,
        #[command(flatten)]
        block: Block,
        #[command(flatten)]
        form: Form,
    },
    /// A line for each page
    Pages {
        #[command(flatten)]
        on: On,
    },
    /// The fields of a header page
    Header {
        #[command(flatten)]
        on: On,
        /// The page's number, from 0 on
        #[arg(value_parser = Typed::number, allow_negative_numbers = true)]
        page: Typed,
    },
    /// The live objects
    List {
        #[command(flatten)]
        on: Past,
        /// Type, size and path of each too
        #[arg(long)]
        long: bool,
    },
    /// The live objects with their paths, and why some have none
    Tree {
        #[command(flatten)]
        on: Past,
    },
    /// The size of a file
    Size {
        #[command(flatten)]
        on: Past,
        #[command(flatten)]
        of: Object,
        /// The page of the newest header, and the one that sets the size, too
        #[arg(long)]
        long: bool,
    },
    /// Where a chunk of a file stands
    Chunk {
        #[command(flatten)]
        on: Past,
        #[command(flatten)]
        of: Object,
        /// The chunk's number, from 1 on
        #[arg(value_parser = Typed::number, allow_negative_numbers = true)]
        n: Typed,
    },
    /// The bytes of a file, holes as zeros
    Read {
        #[command(flatten)]
        on: Past,
        #[command(flatten)]
        of: Object,
        /// A new file for the bytes, in which holes are left sparse; size and
        /// SHA-256 are printed. - is standard output
        #[arg(short, long, value_name = "FILE")]
        out: Option<OsString>,
    },
    /// Which pages hold a file, or every live file
    Extract {
        #[command(flatten)]
        on: Past,
        /// The object's id, or its path from /; every live file if left out
        #[arg(value_parser = Named::parser(), allow_negative_numbers = true)]
        object: Option<Named>,
    },
    /// Every record of an object, the newest first, and how it stands
    Records {
        #[command(flatten)]
        on: Past,
        #[command(flatten)]
        of: Object,
    },
    /// What a file was after each of its records, the oldest first
    History {
        #[command(flatten)]
        on: On,
        #[command(flatten)]
        of: Object,
    },
    /// Why a byte of a file is what it is, or by runs all of its bytes
    Why {
        #[command(flatten)]
        on: Past,
        #[command(flatten)]
        of: Object,
        /// The byte's position in the file, from 0 on; all of them if left out
        #[arg(value_parser = typed::position, allow_negative_numbers = true)]
        position: Option<u64>,
    },
    /// The certificate of a file: what it holds, and which pages say so
    Certify {
        #[command(flatten)]
        on: Past,
        #[command(flatten)]
        of: Object,
        /// A new file for the certificate, of which size and SHA-256 are printed.
        /// - is standard output
        #[arg(short, long, value_name = "FILE")]
        out: Option<OsString>,
    },
    /// Every live file and directory, in a new folder
    Export {
        #[command(flatten)]
        on: On,
        /// The new folder, with manifest.txt and SHA256SUMS in it
        dir: OsString,
    },
    /// A picture of the pages, as SVG
    Map {
        #[command(flatten)]
        on: On,
        /// The object, by its id or its path from /, whose pages are shown by how they
        /// stand; pages are shown by their kinds if left out
        #[arg(long, value_parser = Named::parser(), allow_negative_numbers = true)]
        object: Option<Named>,
        /// A new file for the picture, of which size and SHA-256 are printed. - is
        /// standard output
        #[arg(short, long, value_name = "FILE")]
        out: OsString,
    },
    /// What differs between two dumps, object by object
    Compare {
        #[command(flatten)]
        on: Both,
    },
    /// An answer for each request of a script
    #[command(after_help = FORMS)]
    Script {
        #[command(flatten)]
        source: Source,
        /// A file with a request on each line; standard input if left out
        #[arg(default_value = "-", hide_default_value = true)]
        script: OsString,
    },
    /// A script that completes what is typed, for a shell
    Completions { shell: Shell },
}

/// A dump, how it is cut, and how the answer is printed.
#[derive(Debug, Args)]
pub struct On {
    #[command(flatten)]
    pub source: Source,
    /// The layout, by its sizes or its number in the table; found if left out
    #[arg(long, value_name = "P/S/T", value_parser = Typed::layout)]
    pub layout: Option<Typed>,
    #[command(flatten)]
    pub block: Block,
    #[command(flatten)]
    pub form: Form,
}

/// A dump that can be read as it once stood.
#[derive(Debug, Args)]
pub struct Past {
    #[command(flatten)]
    pub on: On,
    /// As the dump stood before the record on this page was written
    #[arg(long, value_name = "PAGE", value_parser = Typed::number, allow_negative_numbers = true)]
    pub before: Option<Typed>,
}

/// Two dumps, how each is cut, and how the answer is printed.
#[derive(Debug, Args)]
pub struct Both {
    /// The first dump: a file, opened read-only, or - for standard input
    pub evening: OsString,
    /// The second dump, in the same way
    pub morning: OsString,
    /// Read the dumps into memory instead of mapping them
    #[arg(long)]
    pub copy: bool,
    /// The layout of both, by its sizes or its number in the table; found if left out
    #[arg(long, value_name = "P/S/T", value_parser = Typed::layout)]
    pub layout: Option<Typed>,
    /// The pages of a block of both, 1 to 256; found if left out
    #[arg(short, long, value_name = "K", value_parser = Typed::number, allow_negative_numbers = true)]
    pub block: Option<Typed>,
    /// The layout of the second dump, where it is another
    #[arg(long, value_name = "P/S/T", value_parser = Typed::layout)]
    pub layout2: Option<Typed>,
    /// The pages of a block of the second dump, where they are others
    #[arg(long, value_name = "K", value_parser = Typed::number, allow_negative_numbers = true)]
    pub block2: Option<Typed>,
    #[command(flatten)]
    pub form: Form,
}

#[derive(Debug, Args)]
pub struct Source {
    /// The dump: a file, opened read-only, or - for standard input
    pub dump: OsString,
    /// Read the dump into memory instead of mapping it
    #[arg(long)]
    pub copy: bool,
}

#[derive(Debug, Args)]
pub struct Block {
    /// The pages of a block, 1 to 256; found if left out
    #[arg(short, long, value_name = "K", value_parser = Typed::number, allow_negative_numbers = true)]
    pub block: Option<Typed>,
}

#[derive(Clone, Copy, Debug, Args)]
pub struct Form {
    /// Print a JSON object on each line
    #[arg(long)]
    pub json: bool,
}

#[derive(Debug, Args)]
pub struct Object {
    /// The object's id, or its path from /
    #[arg(value_parser = Named::parser(), allow_negative_numbers = true)]
    pub object: Named,
}

/// What is to be done.
pub enum Parsed {
    Run(Arguments),
    /// Help or version, to be printed.
    Tell(String),
}

impl Arguments {
    /// Reads the words behind the program's name, or says in a sentence what
    /// is wrong with them.
    pub fn parse(words: impl IntoIterator<Item = OsString>) -> Result<Parsed, String> {
        let words: Vec<OsString> = words.into_iter().collect();
        let named = [OsString::from("lohenarr")].into_iter();
        match Arguments::try_parse_from(named.chain(words.iter().cloned())) {
            Ok(arguments) => Ok(Parsed::Run(arguments)),
            Err(error) => usage::told(&error, &Arguments::command(), words.first()),
        }
    }
}

impl Arguments {
    /// How the answer is printed.
    pub fn json(&self) -> bool {
        match &self.command {
            Command::Find { form, .. } => form.json,
            Command::Report { on }
            | Command::Pages { on }
            | Command::Header { on, .. }
            | Command::History { on, .. }
            | Command::Export { on, .. }
            | Command::Map { on, .. } => on.form.json,
            Command::List { on, .. }
            | Command::Tree { on }
            | Command::Size { on, .. }
            | Command::Chunk { on, .. }
            | Command::Read { on, .. }
            | Command::Extract { on, .. }
            | Command::Records { on, .. }
            | Command::Why { on, .. }
            | Command::Certify { on, .. } => on.on.form.json,
            Command::Compare { on } => on.form.json,
            Command::Script { .. } | Command::Completions { .. } => false,
        }
    }

    /// Whether what is printed is evidence, and nothing else may be among it.
    pub fn prints_evidence(&self) -> bool {
        matches!(self.command, Command::Read { .. })
    }
}
