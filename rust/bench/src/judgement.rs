//! Whether the library is as fast as it has to be.

use crate::message::Kind;
use std::fmt;

/// The library takes at most this part of the time of `plain`, on messages of at
/// least so many bytes.
const BOUND: f64 = 0.5;
const BOUND_FROM: usize = 4096;

/// What was digested, and the time of the library over that of two others.
pub struct Row {
    pub bits: u64,
    pub size: usize,
    pub kind: Kind,
    pub to_plain: f64,
    pub to_tables: f64,
}

impl fmt::Display for Row {
    fn fmt(&self, formatter: &mut fmt::Formatter) -> fmt::Result {
        let Row {
            bits, size, kind, ..
        } = self;
        write!(formatter, "{bits} bits, {size} bytes, {kind}")
    }
}

impl Row {
    fn is_judged(&self) -> bool {
        self.size >= BOUND_FROM
    }

    /// Where the library is too slow: which row it is, and by how much, which is
    /// never said to be nothing.
    pub fn fault(&self) -> Option<String> {
        let ratio = self.to_plain;
        let percent = (100.0 * (ratio / BOUND - 1.0)).max(0.1);
        (self.is_judged() && ratio > BOUND).then(|| {
            format!(
                "{self}: {ratio:.3} of plain's time where at most {BOUND} is meant: {percent:.1} % too long"
            )
        })
    }
}

/// The largest ratios of the rows that are judged.
pub fn largest(rows: &[Row]) -> String {
    let most = |ratio: fn(&Row) -> f64| {
        rows.iter()
            .filter(|row| row.is_judged())
            .max_by(|one, other| ratio(one).total_cmp(&ratio(other)))
            .map_or("none".into(), |row| format!("{:.3} ({row})", ratio(row)))
    };
    format!(
        "largest ratio to plain from {BOUND_FROM} bytes on, where at most {BOUND} is meant: {}\n\
         largest ratio to tables there, which is not judged: {}",
        most(|row| row.to_plain),
        most(|row| row.to_tables)
    )
}

#[cfg(test)]
mod tests {
    use super::*;

    fn row(size: usize, to_plain: f64, to_tables: f64) -> Row {
        let (bits, kind) = (256, Kind::Zeros);
        Row {
            bits,
            size,
            kind,
            to_plain,
            to_tables,
        }
    }

    #[test]
    fn a_ratio_above_the_bound_is_a_fault_and_is_named() {
        assert_eq!(
            row(4096, 0.53, 9.0).fault().unwrap(),
            "256 bits, 4096 bytes, zeros: 0.530 of plain's time where at most 0.5 is meant: 6.0 % too long"
        );
        assert_eq!(
            row(1 << 20, 1.25, 0.1).fault().unwrap(),
            "256 bits, 1048576 bytes, zeros: 1.250 of plain's time where at most 0.5 is meant: 150.0 % too long"
        );
    }

    #[test]
    fn a_ratio_just_above_the_bound_is_more_than_0_per_cent_too_long() {
        let fault = row(4096, 0.500_001, 1.0).fault().unwrap();
        assert!(fault.ends_with(": 0.1 % too long"), "{fault}");
    }

    #[test]
    fn a_ratio_at_the_bound_or_below_is_no_fault() {
        assert!(row(4096, 0.5, 9.0).fault().is_none());
        assert!(row(1 << 20, 0.3, 9.0).fault().is_none());
    }

    #[test]
    fn shorter_messages_are_not_judged() {
        assert!(row(4095, 0.6, 2.0).fault().is_none());
        assert!(row(64, 100.0, 100.0).fault().is_none());
    }

    #[test]
    fn the_largest_ratios_are_those_of_rows_that_are_judged() {
        let rows = [row(64, 7.0, 7.0), row(4096, 0.4, 1.2), row(65536, 0.3, 1.4)];
        let told = largest(&rows);
        let told: Vec<&str> = told.lines().collect();
        assert!(told[0].ends_with(": 0.400 (256 bits, 4096 bytes, zeros)"));
        assert!(told[1].ends_with(": 1.400 (256 bits, 65536 bytes, zeros)"));
        assert!(largest(&rows[..1]).ends_with(": none"));
    }
}
