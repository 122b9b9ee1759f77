// SPDX-License-Identifier: MIT
//! Judges histories with some of their lines changed.
use checker::{Failure, Fault, judge};

/// The head of a history of two clients over two buckets that begin with version 7. One chain can grow.
pub const CLIENTS: &str = "round clients threads seed 1 calling 2 buckets 2 overflow 1 rows 8 version 7";

/// What the checker has to say of a history with some of its lines changed: each change has the thread and
/// the first stamp of the line in whose place it comes.
pub type Row<'a> = (&'a str, Result<(), Fault>, &'a [&'a str]);

fn place(line: &str) -> (&str, &str) {
    let mut words = line.split(' ');
    (words.next().unwrap(), words.next().unwrap_or_default())
}

/// The text of a history with its changes.
pub fn changed(head: &str, lines: &str, changes: &[&str]) -> String {
    let mut all: Vec<&str> = lines.lines().filter(|line| !line.is_empty()).collect();
    for change in changes {
        let old = all.iter_mut().find(|line| place(line) == place(change));
        *old.unwrap_or_else(|| panic!("no line for `{change}`")) = change;
    }
    [&[head], &all[..], &["close"]].concat().join("\n")
}

pub fn verdict(text: &str) -> Result<(), Fault> {
    match judge(text, 0) {
        Ok(_) => Ok(()),
        Err(Failure::History { fault, .. }) => Err(fault),
        Err(failure) => panic!("{failure}"),
    }
}

/// Judges the lines with the changes of each row.
pub fn judge_rows(head: &str, lines: &str, rows: &[Row]) {
    for (name, wanted, changes) in rows {
        assert_eq!(verdict(&changed(head, lines, changes)), *wanted, "{name}");
    }
}
