//! Layouts by name, K, and the length limits.

use crate::second::layout::{opened, table, Layout, Named};
use crate::second::refusal::Refusal;
use crate::second::wrong::Wrong;

fn judged(named: Named, k: u64, length: u64) -> Result<(Layout, usize), Refusal> {
    opened(named, k, length, Wrong::None)
}

#[test]
fn the_table_has_thirteen_layouts_in_order() {
    let shown: Vec<String> = table().iter().map(Layout::to_string).collect();
    let by_pair = [
        "2048/64/0 2048/64/2 2048/64/30",
        "4096/128/0 4096/128/2 4096/128/30",
        "512/16/0",
        "8192/224/0 8192/224/2 8192/224/30",
        "16384/448/0 16384/448/2 16384/448/30",
    ];
    assert_eq!(shown.join(" "), by_pair.join(" "));
    for (number, &layout) in table().iter().enumerate() {
        assert_eq!(Named::Number(number as u64).layout(), Some(layout));
        assert_eq!(Named::from(layout).layout(), Some(layout));
    }
}

#[test]
fn layouts_outside_the_table_are_refused() {
    let bad = [
        Named::Number(13),
        Named::Number(u64::MAX),
        Named::Sizes(512, 16, 2),
        Named::Sizes(512, 16, 30),
        Named::Sizes(2048, 64, 1),
        Named::Sizes(0, 0, 0),
    ];
    for named in bad {
        assert_eq!(judged(named, 4, 4224), Err(Refusal::BadLayout));
    }
}

#[test]
fn k_is_from_1_to_256() {
    let small = Named::Sizes(512, 16, 0);
    for k in [0, 257, u64::MAX] {
        assert_eq!(judged(small, k, 0), Err(Refusal::BadLayout));
    }
    for k in [1, 2, 4, 8] {
        assert_eq!(judged(small, k, 4224).map(|found| found.1), Ok(8));
    }
    for k in [3, 16, 256] {
        assert_eq!(judged(small, k, 4224), Err(Refusal::BadLength));
    }
}

#[test]
fn length_limits() {
    let small = Named::Sizes(512, 16, 0);
    let pages = |length| judged(small, 1, length).map(|found| found.1);
    assert_eq!(pages(0), Err(Refusal::BadLength));
    assert_eq!(pages(527), Err(Refusal::BadLength));
    assert_eq!(pages(528), Ok(1));
    assert_eq!(pages(529), Err(Refusal::BadLength));
    assert_eq!(pages(1_073_741_328), Ok(2_033_601));
    assert_eq!(pages(1_073_741_824), Err(Refusal::BadLength));
    assert_eq!(pages(1_073_741_856), Err(Refusal::BadLength));
}
