//! `compare EVENING MORNING`: what differs between two dumps, object by object.

use super::Opened;
use crate::arguments::{Both, Source};
use crate::compare::{Comparison, Prepared};
use crate::failure::Failure;
use crate::fields::{Field, Printer, Value};
use crate::progress::Progress;
use crate::standard::{remark, say};

pub fn compare(on: &Both, out: &mut Printer<'_>) -> Result<(), Failure> {
    let [evening, morning] = opened(on)?;
    let [first, second] = prepared(&evening, &morning)?;
    let progress = Progress::beside_output("comparing", first.records() + second.records());
    let mut left = Comparison::of(&first, &second);
    let (mut compared, mut differ) = (0, 0);
    loop {
        let report = match left.next_object() {
            Ok(Some(report)) => report,
            Ok(None) => break,
            Err(number) => return evening.done(Err(number), evening.asked()),
        };
        compared += 1;
        differ += u64::from(!report.text.is_empty());
        match out.is_json() {
            true if report.text.is_empty() => {}
            true => out.line(&fields(report.text))?,
            false => out.raw().write_all(report.text)?,
        }
        progress.add(report.records);
    }
    drop(progress);
    evening.check_length()?;
    morning.check_length()?;
    out.raw().flush()?;
    remark(&format!(
        "objects compared: {compared}, that differ: {differ}"
    ));
    Ok(())
}

/// Both dumps, each by what is named for it.
fn opened(on: &Both) -> Result<[Opened; 2], Failure> {
    if on.evening == "-" && on.morning == "-" {
        let one = "only one of the two dumps can be standard input";
        return Err(Failure::Usage(one.to_string()));
    }
    let source = |dump| Source {
        dump,
        copy: on.copy,
    };
    let sources = [on.evening.clone(), on.morning.clone()].map(source);
    let [layout2, block2] = [(&on.layout2, &on.layout), (&on.block2, &on.block)]
        .map(|(own, both)| own.as_ref().or(both.as_ref()));
    let first = Opened::tried(&sources[0], on.layout.as_ref(), on.block.as_ref());
    let second = Opened::tried(&sources[1], layout2, block2);
    let opened = match (first, second) {
        (Ok(first), Ok(second)) => [first, second],
        (first, second) => return Err(foremost(&sources, [first.err(), second.err()])),
    };
    for (opened, option) in opened.iter().zip(["--block", "--block2"]) {
        if let Some(fitting) = &opened.fitting {
            let (name, sentence) = (opened.dump.name().display(), fitting.sentence(option));
            say(&format!("lohenarr: {name}: {sentence}"));
        }
    }
    Ok(opened)
}

/// A file that cannot be read, or else the refusal that comes first in the table's order,
/// which is that of 1, 2 and 3, with the dump that it is of.
fn foremost(sources: &[Source; 2], failures: [Option<Failure>; 2]) -> Failure {
    let which = ["the first dump", "the second dump"];
    let named = which.into_iter().zip(sources).zip(failures);
    let failures = named.filter_map(|((which, source), failure)| {
        Some(match failure? {
            Failure::Refused(number, meaning) => {
                let name = source.dump.display();
                Failure::Refused(number, format!("{which}, {name}: {meaning}"))
            }
            other => other,
        })
    });
    let rank = |failure: &Failure| match failure {
        Failure::Refused(number, _) => *number,
        _ => 0,
    };
    let foremost = failures.min_by_key(rank);
    foremost.unwrap_or_else(|| Failure::Usage("nothing failed".to_string()))
}

/// Goes over both dumps, by two threads where they are long.
fn prepared<'o>(evening: &'o Opened, morning: &'o Opened) -> Result<[Prepared<'o>; 2], Failure> {
    let _progress = Progress::new("going over the pages", None);
    let [one, other]: [(&[u8], _); 2] = [evening, morning].map(|o| (&o.dump[..], o.geometry()));
    let of = |(dump, on)| Prepared::of(dump, on);
    let (first, second) = evening.dump.beside(|| of(one), || of(other));
    let second = second.unwrap_or_else(|| of(other));
    Ok([
        evening.done(first, evening.asked())?,
        morning.done(second, morning.asked())?,
    ])
}

/// The names of lines that an object has at most once, and of those that it may have
/// more of.
const ONCE: [&str; 4] = ["object", "only", "deleted", "noheader"];
const SEVERAL: [&str; 3] = ["field", "size", "stretch"];

/// The lines of an object as fields.
fn fields(text: &[u8]) -> Vec<Field<'static>> {
    let text = String::from_utf8_lossy(text);
    let values = |key: &str| -> Vec<u64> {
        let lines = text.lines().filter_map(|line| line.split_once('='));
        let own = lines.filter(|(name, _)| *name == key);
        own.filter_map(|(_, value)| value.parse().ok()).collect()
    };
    let once = ONCE.into_iter().filter_map(|key| {
        let value = values(key).first().copied()?;
        Some((key, value.into()))
    });
    let several = SEVERAL.into_iter().filter_map(|key| {
        let values = values(key);
        (!values.is_empty()).then_some((key, Value::Numbers(values)))
    });
    once.chain(several).collect()
}

#[cfg(test)]
mod tests {
    use super::*;

    #[test]
    fn lines_become_fields() {
        let lines =
            b"object=7\ndeleted=1\nnoheader=2\nfield=4\nfield=10\nsize=1\nsize=2\nstretch=0\n";
        let mut printed = Vec::new();
        let mut out = Printer::new(&mut printed, true);
        out.line(&fields(lines)).unwrap();
        out.line(&fields(b"object=8\nonly=2\n")).unwrap();
        let objects = "{\"object\":7,\"deleted\":1,\"noheader\":2,\"field\":[4,10],\
                       \"size\":[1,2],\"stretch\":[0]}\n{\"object\":8,\"only\":2}\n";
        assert_eq!(String::from_utf8(printed).unwrap(), objects);
    }

    /// What comes first of two failures.
    #[test]
    fn refusals_go_by_the_table() {
        let sources = ["a", "b"].map(|name| Source {
            dump: name.into(),
            copy: false,
        });
        let refused = |number| Some(Failure::Refused(number, "so".to_string()));
        let unread = || Some(Failure::File("unread".to_string()));
        let told = |failures| match foremost(&sources, failures) {
            Failure::Refused(number, meaning) => format!("{number} {meaning}"),
            Failure::File(reason) => reason,
            _ => String::new(),
        };
        let first = |number| format!("{number} the first dump, a: so");
        let second = |number| format!("{number} the second dump, b: so");
        assert_eq!(told([refused(2), refused(1)]), second(1));
        assert_eq!(told([refused(1), refused(2)]), first(1));
        assert_eq!(told([refused(3), refused(2)]), second(2));
        assert_eq!(told([refused(2), refused(2)]), first(2));
        assert_eq!(told([None, refused(3)]), second(3));
        assert_eq!(told([refused(3), None]), first(3));
        assert_eq!(told([refused(1), unread()]), "unread");
    }
}
