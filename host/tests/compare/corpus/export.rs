//! Each dump exported: every file and directory that the driver shows is there, with the
//! driver's bytes, and nothing else is.

use std::collections::BTreeMap;
use std::fs;
use std::process::Command;

use super::command::{lines, written};
use super::{cases, value, Case, DRIVERS_OWN};
use crate::sha256;

/// What the driver shows of objects that stand on pages: by path, the SHA-256 of a
/// file's bytes.
fn shown(case: &Case) -> BTreeMap<String, Option<String>> {
    let shown = case.paths.iter().filter(|shown| shown.object > DRIVERS_OWN);
    let sum = |object| {
        let mut files = case.files.iter();
        files
            .find(|file| file.object == object)
            .map(|file| file.sha256.clone())
    };
    shown
        .map(|shown| (format!(".{}", shown.path), sum(shown.object)))
        .collect()
}

#[test]
fn exports_are_what_the_driver_shows() {
    let (mut files, mut others) = (0, 0);
    for case in cases() {
        let folder = tempfile::tempdir().unwrap();
        let (dump, out) = (written(&case, &folder), folder.path().join("out"));
        let typed = [out.to_str().unwrap(), "--block", &case.block];
        let printed = lines("export", &dump, &typed);
        let counted = printed.lines().next().unwrap();
        assert_eq!(value(counted, "files"), case.files.len().to_string());
        assert!(printed.ends_with("\nrenamed=0\nlost=0\n"), "{printed}");

        let shown = shown(&case);
        for (path, sum) in &shown {
            let path = out.join(path);
            match sum {
                Some(sum) => {
                    assert_eq!(
                        &sha256(&fs::read(&path).unwrap()),
                        sum,
                        "{}",
                        path.display()
                    );
                    files += 1;
                }
                None => {
                    assert!(path.symlink_metadata().is_ok(), "{}", path.display());
                    others += 1;
                }
            }
        }
        let find = Command::new("find")
            .args([".", "-mindepth", "1"])
            .current_dir(&out)
            .output();
        let found = String::from_utf8(find.unwrap().stdout).unwrap();
        let own = ["./manifest.txt", "./SHA256SUMS"];
        let mut found: Vec<&str> = found.lines().filter(|path| !own.contains(path)).collect();
        found.sort_unstable();
        assert!(found.into_iter().eq(shown.keys()), "{}", case.name);

        let mut check = Command::new("sha256sum");
        check.args(["--check", "--strict", "--quiet", "SHA256SUMS"]);
        let checked = check.current_dir(&out).output().unwrap();
        assert!(checked.status.success(), "{}", case.name);
        manifest_is_of(
            &case,
            &fs::read_to_string(out.join("manifest.txt")).unwrap(),
        );
    }
    println!("{files} files and {others} others");
    assert!(files > 100 && others > 20, "{files} and {others}");
}

/// The manifest says of each object what the driver shows.
fn manifest_is_of(case: &Case, manifest: &str) {
    let lines: Vec<&str> = manifest
        .lines()
        .filter(|line| line.starts_with("object="))
        .collect();
    for shown in case.paths.iter().filter(|shown| shown.object > DRIVERS_OWN) {
        let begin = format!(
            "object={} type={} path={}",
            shown.object, shown.file_type, shown.path
        );
        let line = lines.iter().find(|line| line.starts_with(&begin));
        let line = line.unwrap_or_else(|| panic!("{}: {begin} in {manifest}", case.name));
        if let Some(file) = case.files.iter().find(|file| file.object == shown.object) {
            let (size, sum) = (value(line, "size"), value(line, "sha256"));
            assert_eq!((size, sum), (&*file.size.to_string(), &*file.sha256));
        }
    }
    let shown = case
        .objects
        .iter()
        .filter(|&&object| object > DRIVERS_OWN)
        .count();
    let own = lines
        .iter()
        .filter(|line| line.starts_with("object=1 "))
        .count();
    assert_eq!(lines.len(), shown + own, "{}", case.name);
}
