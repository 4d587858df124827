//! `make install`: what it puts in place works there, and the man page and
//! docs/COMMAND.md have everything that can be typed.

use std::fs::{self, File};
use std::path::{Path, PathBuf};
use std::process::{Command, Output};

use clap::CommandFactory;
use lohenarr::arguments::Arguments;
use lohenarr::refusal::name;
use tempfile::TempDir;

const HOST: &str = env!("CARGO_MANIFEST_DIR");

/// Runs a program, which must succeed.
fn run(command: &mut Command) -> Output {
    let output = command.output().unwrap();
    let said = String::from_utf8_lossy(&output.stderr);
    assert!(output.status.success(), "{command:?}: {said}");
    output
}

/// Everything installed below a new folder, under /usr; nothing is built anew.
fn installed() -> TempDir {
    let folder = tempfile::tempdir().unwrap();
    let built = env!("CARGO_BIN_EXE_lohenarr");
    let mut make = Command::new("make");
    make.current_dir(Path::new(HOST).join(".."))
        .args(["-o", "target/staticlib/libcapi.a", "-o", built])
        .args(["install", "PREFIX=/usr", &format!("command={built}")])
        .arg(format!("DESTDIR={}", folder.path().display()));
    run(&mut make);
    folder
}

fn shelf() -> PathBuf {
    Path::new(HOST).join("tests/data/W")
}

#[test]
fn what_is_installed_works() {
    let folder = installed();
    let usr = folder.path().join("usr");
    let mut lohenarr = Command::new(usr.join("bin/lohenarr"));
    lohenarr.arg("size").arg(shelf()).args(["257", "-b", "4"]);
    assert_eq!(run(&mut lohenarr).stdout, b"size=1034\n");
    let completions = [
        "share/bash-completion/completions/lohenarr",
        "share/zsh/site-functions/_lohenarr",
        "share/fish/vendor_completions.d/lohenarr.fish",
    ];
    for name in completions {
        let completions = fs::read_to_string(usr.join(name)).unwrap();
        for word in [
            "extract", "why", "tree", "compare", "block2", "json", "long", "records", "history",
            "certify", "export", "map",
        ] {
            assert!(completions.contains(word), "{name}: {word}");
        }
    }
    run(Command::new("bash").arg("-n").arg(usr.join(completions[0])));
    assert!(usr.join("share/man/man1/lohenarr.1").exists());
    // what the man page and a certificate refer to
    for name in ["CERTIFY.md", "COMMAND.md", "RULES.md", "TRUST.md"] {
        assert!(usr.join("share/doc/lohenarr").join(name).exists(), "{name}");
    }
}

/// The C program, by the flags that pkg-config gives.
#[test]
fn the_library_is_found_by_its_name() {
    let folder = installed();
    let mut flags = Command::new("pkg-config");
    flags
        .args(["--cflags", "--libs", "lohenarr"])
        .env("PKG_CONFIG_PATH", folder.path().join("usr/lib/pkgconfig"))
        .env("PKG_CONFIG_SYSROOT_DIR", folder.path());
    let flags = String::from_utf8(run(&mut flags).stdout).unwrap();
    let program = folder.path().join("calls");
    let mut cc = Command::new("cc");
    cc.arg(Path::new(HOST).join("tests/c/calls.c")).arg("-o");
    run(cc.arg(&program).args(flags.split_whitespace()));
    let shelf = File::open(shelf()).unwrap();
    let printed = run(Command::new(program).stdin(shelf)).stdout;
    assert!(printed.starts_with(b"layout OK: 6 512/16/0\n"));
}

#[test]
fn the_man_page_has_what_can_be_typed() {
    let page = fs::read_to_string(Path::new(HOST).join("lohenarr.1")).unwrap();
    let page = page.replace("\\-", "-");
    let has = |what: &str| assert!(page.contains(what), "no {what:?} in the man page");
    let all = Arguments::command();
    has(&all
        .render_version()
        .trim_end()
        .replace("lohenarr ", "\"lohenarr "));
    for command in all.get_subcommands() {
        has(&format!("\n.BI {} ", command.get_name()));
        for option in command.get_arguments() {
            if let Some(long) = option.get_long() {
                has(&format!("--{long}"));
            }
            if let Some(short) = option.get_short() {
                has(&format!(".BR -{short} "));
            }
        }
    }
    for number in 1..=16 {
        has(&format!("\n{number}\t{}\t", name(number)));
    }
}

#[test]
fn the_reference_has_what_can_be_typed() {
    let reference = Path::new(HOST).join("../docs/COMMAND.md");
    let reference = fs::read_to_string(reference).unwrap();
    let has = |what: &str| assert!(reference.contains(what), "no {what:?} in docs/COMMAND.md");
    for command in Arguments::command().get_subcommands() {
        has(&format!("\n| `{} ", command.get_name()));
        for long in command.get_arguments().filter_map(|one| one.get_long()) {
            has(&format!("`--{long}"));
        }
    }
    for number in 1..=16 {
        has(&format!("\n| {number} | {} | ", name(number)));
    }
}
