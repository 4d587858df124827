//! What the second reader says of an evening's and a morning's dump, against what the
//! driver shows of both.

use crate::corpus::{nights, Case, Shown, DRIVERS_OWN};
use crate::second::compare::{compare, Differences, Side};
use crate::second::index::{Over, Reader};
use crate::second::layout::Named;
use crate::second::wrong::Wrong;

use super::corpus::whole;

/// An object as the driver shows it.
fn shown(case: &Case, object: u32) -> Option<&Shown> {
    case.paths.iter().find(|shown| shown.object == object)
}

/// The directory of an object: by its path the object above it, and 1 for the root.
fn parent(case: &Case, object: &Shown) -> u32 {
    let (above, _) = object.path.rsplit_once('/').expect("a path");
    let directory = case.paths.iter().find(|shown| shown.path == above);
    directory.map_or(1, |shown| shown.object)
}

fn name(object: &Shown) -> &str {
    object.path.rsplit('/').next().unwrap_or_default()
}

/// The side of a case, by the layout that the driver had.
fn side(case: &Case) -> Side<'_> {
    let sizes: Vec<u64> = case.layout.split('/').map(|n| n.parse().unwrap()).collect();
    Side {
        dump: &case.dump,
        layout: Some(Named::Sizes(sizes[0], sizes[1], sizes[2])),
        k: case.block.parse().unwrap(),
    }
}

/// The bytes of a live file.
fn contents(case: &Case, object: u32) -> Vec<u8> {
    let reader = Reader::new(&case.dump, Wrong::None);
    let Side { layout, k, .. } = side(case);
    let layout = layout.expect("a layout");
    let data = layout.layout().expect("a layout of the table").data;
    whole(&reader, Over::Dump(layout, k), data, object.into()).expect("a file")
}

/// What must differ of an object, as the driver shows it on both sides.
fn check(place: &str, night: [&Case; 2], object: u32, found: &Differences) {
    let [first, second] = night.map(|case| shown(case, object));
    let (one, other) = match (first, second) {
        (Some(one), Some(other)) => (one, other),
        (None, None) => {
            assert!(found.sizes.is_empty(), "{place}: {found:?}");
            return;
        }
        // shown on one side alone: the other has nothing of it, or deleted, or no header
        (is_first, _) => {
            let (there, gone) = if is_first.is_some() { (1, 2) } else { (2, 1) };
            let told =
                found.only == Some(there) || found.deleted == [gone] || found.headerless == [gone];
            assert!(told, "{place}: {found:?}");
            return;
        }
    };
    let gone = (found.only, &found.deleted[..], &found.headerless[..]);
    assert_eq!(gone, (None, &[][..], &[][..]), "{place}");
    let has = |at: usize| found.fields.contains(&at);
    assert_eq!(has(0), one.file_type != other.file_type, "{place}: type");
    let parents = parent(night[0], one) != parent(night[1], other);
    assert_eq!(has(4), parents, "{place}: parent");
    assert_eq!(has(10), name(one) != name(other), "{place}: name");
    if [one.file_type, other.file_type] != [1, 1] {
        assert!(
            found.sizes.is_empty() && found.stretches.is_empty(),
            "{place}"
        );
        return;
    }
    let file = |case: &Case| {
        let mut files = case.files.iter();
        let file = files.find(|file| file.object == object).expect("a file");
        (file.size, file.sha256.clone())
    };
    let [one, other] = night.map(file);
    match one.0 == other.0 {
        true => assert!(found.sizes.is_empty(), "{place}"),
        false => assert_eq!(found.sizes, [one.0, other.0], "{place}"),
    }
    let same = found.sizes.is_empty() && found.stretches.is_empty();
    assert_eq!(same, one == other, "{place}: SHA-256");
    let [one, other] = night.map(|case| contents(case, object));
    let pieces = one.chunks(512).zip(other.chunks(512));
    let differ = pieces.map(|(one, other)| {
        let length = one.len().min(other.len());
        one[..length] != other[..length]
    });
    let stretches = (0..).zip(differ).filter(|(_, differ)| *differ);
    let stretches: Vec<u64> = stretches.map(|(number, _)| number).collect();
    assert_eq!(found.stretches, stretches, "{place}");
}

#[test]
fn nights_are_as_the_driver_shows_them() {
    let (mut objects, mut differ) = (0, 0);
    for [evening, morning] in nights() {
        let sides = [&evening, &morning].map(side);
        let all = compare(sides, Wrong::None).unwrap();
        let shown = [&evening, &morning]
            .map(|case| case.objects.clone())
            .concat();
        let mut ids: Vec<u32> = all.iter().map(|found| found.object).collect();
        assert!(ids.is_sorted_by(|one, other| one < other));
        ids.extend(shown.into_iter().filter(|&id| id > DRIVERS_OWN));
        ids.sort_unstable();
        ids.dedup();
        for object in ids {
            let found = all.iter().find(|found| found.object == object);
            let differences = found.map(|found| found.differences.clone());
            let differences = differences.unwrap_or_default();
            let place = format!("{}: object {object}", morning.name);
            check(&place, [&evening, &morning], object, &differences);
            objects += 1;
            differ += usize::from(found.is_some());
        }
    }
    println!("{differ} of {objects} objects differ");
    assert!(differ > 50, "too few differ: {differ}");
}

/// An evening's dump beside one of another controller, which has another layout.
#[test]
fn dumps_of_two_controllers() {
    let nights = nights();
    for pair in nights.windows(2) {
        let ([one, _], [other, _]) = (&pair[0], &pair[1]);
        let all = compare([one, other].map(side), Wrong::None).unwrap();
        for found in &all {
            let place = format!("{} {}: {}", one.name, other.name, found.object);
            check(&place, [one, other], found.object, &found.differences);
        }
        assert!(!all.is_empty(), "{} {}", one.name, other.name);
    }
}
