//! The samples, and what the README says of them.

mod common;

use common::answers;

const README: &str = include_str!("../../../README.md");
const DAY: &str = include_str!("../../samples/day.script");
const GUARDED: &str = include_str!("../../samples/guarded.script");

/// The README from a heading on.
fn from(heading: &str) -> &'static str {
    &README[README.find(heading).expect("the heading")..]
}

/// What stands between back quotes in one column of the table of a day.
fn column(text: &str, at: usize) -> String {
    let rows = text.lines().skip_while(|line| !line.starts_with("| lines |")).skip(2);
    let cells = rows.take_while(|line| line.starts_with('|')).map(|row| row.split('|').nth(at));
    let quoted = cells.flat_map(|cell| cell.expect("a cell").split('`').skip(1).step_by(2));
    quoted.map(|line| format!("{line}\n")).collect()
}

#[test]
fn the_day_is_as_told() {
    let day = from("## A day with eight jobs");
    assert_eq!(column(day, 2), DAY);
    assert_eq!(column(day, 3), answers(DAY.as_bytes()));
    assert!(column(day, 3).ends_with("E 4 0 256 0 4096 8192 0 12288 2048 0 20480 128 0\n"));
}

#[test]
fn the_guarded_day_is_as_told() {
    let day = from("## A day in a guarded map");
    assert_eq!(column(day, 2), GUARDED);
    assert_eq!(column(day, 3), answers(GUARDED.as_bytes()));
    let end = "E 5 0 256 0 4096 4096 0 8192 2048 0 16384 4096 0 20992 512 0\n";
    assert!(column(day, 3).ends_with(end));
}
