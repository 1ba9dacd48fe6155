//! Counts by result number, and of what was carried out by the paper's row.

use std::collections::BTreeMap;
use std::fmt;

use crate::paper::message::{Kind, Message};
use crate::paper::ModuleKind;

/// The rows that every kind can carry out.
#[rustfmt::skip]
const EVERY: [&str; 25] = [
    "0D", "0F", "10", "11", "13", "19 00", "1F 00", "1F 01", "30",
    "extended 20", "extended 2E, 00", "extended 2E, 04", "extended 2E, 07",
    "extended 2F, 00", "extended 2F, 02", "extended 2F, 00 at 0000", "extended 2F, 02 at 0000",
    "broadcast 11", "broadcast 12", "broadcast 13", "broadcast 14",
    "cleanup 11", "cleanup 12", "cleanup 13", "cleanup 14",
];

/// Those that a dimmer can beside them, and an outlet.
#[rustfmt::skip]
const DIMMER: [&str; 11] = [
    "12", "14", "15", "16", "19 06", "21", "2E", "2F", "39", "extended 2E, 05", "extended 2E, 06",
];
const OUTLET: [&str; 3] = ["19 01", "extended 11", "extended 13"];

pub struct Tally {
    listed: Vec<&'static str>,
    results: BTreeMap<u8, usize>,
    rows: BTreeMap<&'static str, usize>,
}

impl Tally {
    /// Of messages to modules of one kind.
    pub fn of(kind: ModuleKind) -> Self {
        let own: &[&str] = match kind {
            ModuleKind::Dimmer => &DIMMER,
            ModuleKind::Outlet => &OUTLET,
        };
        Self::new(0..=8, [&EVERY, own].concat())
    }

    /// Of messages to classes, in which both kinds sit. 11 stands in place of 2.
    pub fn of_classes() -> Self {
        let results = (0..=11).filter(|&result| result != 2);
        Self::new(results, [&EVERY[..], &DIMMER, &OUTLET].concat())
    }

    /// Of frames to program `classroom`. Its reply room is long enough for all, so that nothing comes to 5.
    pub fn of_classroom() -> Self {
        let mut tally = Self::of_classes();
        tally.results.remove(&5);
        tally
    }

    fn new(results: impl Iterator<Item = u8>, listed: Vec<&'static str>) -> Self {
        Self {
            listed,
            results: results.map(|result| (result, 0)).collect(),
            rows: BTreeMap::new(),
        }
    }

    pub fn count(&mut self, message: &[u8], result: u8) {
        let count = self.results.get_mut(&result);
        *count.unwrap_or_else(|| panic!("{result} is no result here")) += 1;
        if result == 0 {
            *self.rows.entry(self.row(message)).or_default() += 1;
        }
    }

    pub fn total(&self) -> usize {
        self.results.values().sum()
    }

    pub fn assert_at_least(&self, each_result: usize, each_row: usize) {
        for (result, &count) in &self.results {
            assert!(count >= each_result, "result {result} came {count} times");
        }
        for &row in &self.listed {
            let count = self.carried_out(row);
            assert!(count >= each_row, "{row} was carried out {count} times");
        }
    }

    fn carried_out(&self, row: &str) -> usize {
        self.rows.get(row).copied().unwrap_or(0)
    }

    /// The row that a message which was carried out belongs to.
    fn row(&self, message: &[u8]) -> &'static str {
        let name = name(message);
        let listed = self.listed.iter().find(|&&row| row == name);
        listed.unwrap_or_else(|| panic!("{name} is no row of the paper"))
    }
}

impl fmt::Display for Tally {
    fn fmt(&self, f: &mut fmt::Formatter) -> fmt::Result {
        for (result, count) in &self.results {
            writeln!(f, "result {result:>2}: {count:>7}")?;
        }
        for row in &self.listed {
            let count = self.carried_out(row);
            writeln!(f, "carried out {row:<23}: {count:>6}")?;
        }
        Ok(())
    }
}

fn name(message: &[u8]) -> String {
    let message = Message::read(message).expect("what was carried out can be read");
    let (command1, command2) = (message.command1, message.command2);
    match (message.kind(), message.data) {
        (Some(Kind::Broadcast), _) => format!("broadcast {command1:02X}"),
        (Some(Kind::Cleanup), _) => format!("cleanup {command1:02X}"),
        (_, Some(data)) if command1 == 0x2F && [data.at(3), data.at(4)] == [0x00, 0x00] => {
            format!("extended 2F, {:02X} at 0000", data.at(2))
        }
        (_, Some(data)) if matches!(command1, 0x2E | 0x2F) => {
            format!("extended {command1:02X}, {:02X}", data.at(2))
        }
        (_, Some(_)) => format!("extended {command1:02X}"),
        (_, None) if matches!(command1, 0x19 | 0x1F) => format!("{command1:02X} {command2:02X}"),
        (_, None) => format!("{command1:02X}"),
    }
}
