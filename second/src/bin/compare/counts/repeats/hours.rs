//! What was compared of hours and the records before them.

use second::bytes::u16_at;

use super::asked::{has_nan, is_in_form, key, moisture, number, unit};
use super::records::Tables;
use crate::draft::{ANODES, FULL_BOOK, HOUR, LAST_HOUR, MOST_MOISTURE};

pub const TABLES: Tables = Tables {
    names: ["repeat", "repeat with reason", "counted after"],
    repeats: &[
        ("of one that counted", |asked| {
            asked.stands_in_one(0, |_| true)
        }),
        ("of one with a flag, reason 1", |asked| {
            asked.stands_in_one(1, |line| line[1] > 0)
        }),
        ("of one with a fuel number, reason 1", |asked| {
            asked.stands_in_one(1, |line| u16_at(line, 4) > 0)
        }),
        ("of one with a byte after its moisture, reason 1", |asked| {
            asked.stands_in_one(1, |line| line[18..].iter().any(|&byte| byte > 0))
        }),
        ("of one with moisture on a wet unit, reason 1", |asked| {
            asked.stands_in_one(1, is_in_form)
        }),
        ("of one with NaN, reason 4", |asked| {
            asked.stands_in_one(4, has_nan)
        }),
        ("of one with another reading, reason 4", |asked| {
            asked.stands_in_one(4, |line| !has_nan(line) && moisture(line) <= MOST_MOISTURE)
        }),
        ("of one with moisture past 1,000, reason 4", |asked| {
            asked.stands_in_one(4, |line| moisture(line) > MOST_MOISTURE)
        }),
        ("of one that is a repeat, reason 8", |asked| {
            asked.same().count() == 2
        }),
        ("of more than ten", |asked| asked.same().count() > 10),
        ("of the same readings", |asked| {
            asked.same().all(|other| other[8..] == asked.line()[8..])
        }),
        ("of other readings", |asked| {
            asked
                .same()
                .all(|other| other[8..16] != asked.line()[8..16])
        }),
        ("with moisture, of one without", |asked| {
            moisture(asked.line()) > 0 && asked.same().all(|other| moisture(other) == 0)
        }),
        ("with moisture, of other moisture", |asked| {
            let differs = |other| ![0, moisture(asked.line())].contains(&moisture(other));
            moisture(asked.line()) > 0 && asked.same().all(differs)
        }),
        ("of the record before", |asked| asked.distance() == Some(1)),
        ("over one record to a hundred", |asked| {
            asked.distance().is_some_and(|far| (2..=101).contains(&far))
        }),
        ("over more than a hundred", |asked| {
            asked.distance().is_some_and(|far| far > 101)
        }),
        ("over more than two thousand", |asked| {
            asked.distance().is_some_and(|far| far > 2_001)
        }),
        ("of hour 1", |asked| number(asked.line()) == 1),
        ("of hour 8,784", |asked| number(asked.line()) == LAST_HOUR),
        ("of unit 1", |asked| unit(asked.line()) == 1),
        ("of unit 65,535", |asked| unit(asked.line()) == u16::MAX),
        ("in a full book", |asked| asked.book.len() == FULL_BOOK),
    ],
    other_reasons: &[
        ("1", |asked| asked.reason == 1),
        ("1, with moisture alone", |asked| {
            asked.reason == 1 && is_in_form(asked.line())
        }),
        ("2", |asked| asked.reason == 2),
        ("2, of unit 0", |asked| unit(asked.line()) == 0),
        ("4, of hour 0", |asked| {
            asked.reason == 4 && number(asked.line()) == 0
        }),
        ("4, of an hour past 8,784", |asked| {
            asked.reason == 4 && number(asked.line()) > LAST_HOUR
        }),
        ("4, with NaN", |asked| {
            asked.reason == 4 && has_nan(asked.line())
        }),
        ("5", |asked| asked.reason == 5),
    ],
    near_misses: &[
        ("an hour of its unit but for the lower byte", |asked| {
            asked.resembles_hour(|other, line| other[3] == line[3] && other[6..8] == line[6..8])
        }),
        ("an hour of its unit but for the upper byte", |asked| {
            asked.resembles_hour(|other, line| other[2] == line[2] && other[6..8] == line[6..8])
        }),
        ("an hour of its number but for the lower byte", |asked| {
            asked.resembles_hour(|other, line| other[2..4] == line[2..4] && other[7] == line[7])
        }),
        ("an hour of its number but for the upper byte", |asked| {
            asked.resembles_hour(|other, line| other[2..4] == line[2..4] && other[6] == line[6])
        }),
        ("an hour of unit and number exchanged", |asked| {
            asked.resembles_hour(|other, line| key(other) == [number(line), unit(line)])
        }),
        ("its unit and number, kind 1", |asked| {
            asked.resembles(|other, line| other[0] == 1 && key(other) == key(line))
        }),
        ("its unit and number, kind 0 or 3 to 255", |asked| {
            asked.resembles(|other, line| ![1, HOUR].contains(&other[0]) && key(other) == key(line))
        }),
        ("its unit and number, anodes", |asked| {
            asked.resembles(|other, line| other[0] == ANODES && key(other) == key(line))
        }),
        ("all its bytes but those of the number", |asked| {
            asked.resembles(|other, line| other[..6] == line[..6] && other[8..] == line[8..])
        }),
        ("all its bytes but those of the unit", |asked| {
            asked.resembles(|other, line| other[..2] == line[..2] && other[4..] == line[4..])
        }),
    ],
};

#[cfg(test)]
mod tests {
    use super::super::records;
    use super::TABLES;
    use crate::draft::{put, with_moisture, Line};
    use crate::repeats::{Key, Kind};

    fn hour_of(key: Key) -> Line {
        Kind::Hours.record(key)
    }

    fn counted(records: &[Line]) -> Vec<String> {
        records::counted(&TABLES, records)
    }

    /// The hour before the last, and the name of one thing that is counted then.
    #[test]
    fn repeats_are_told_by_what_stood_before() {
        let hour = hour_of((1, 300));
        let edited = |edit: fn(&mut Line)| {
            let mut line = hour;
            edit(&mut line);
            line
        };
        let firsts = [
            (hour, "of one that counted"),
            (edited(|line| line[8] = 1), "of other readings"),
            (edited(|line| line[1] = 1), "of one with a flag, reason 1"),
            (
                edited(|line| line[5] = 1),
                "of one with a fuel number, reason 1",
            ),
            (
                edited(|line| line[31] = 1),
                "of one with a byte after its moisture, reason 1",
            ),
            (
                with_moisture(hour, 1),
                "of one with moisture on a wet unit, reason 1",
            ),
            (
                edited(|line| put(line, 8, &[0xFF; 4])),
                "of one with NaN, reason 4",
            ),
            (
                edited(|line| put(line, 12, &[0x7F; 4])),
                "of one with another reading, reason 4",
            ),
        ];
        for (first, name) in firsts {
            assert!(
                counted(&[first, hour]).contains(&name.to_string()),
                "{name}"
            );
        }
    }

    #[test]
    fn repeats_of_repeats_are_told() {
        let hour = hour_of((1, 300));
        assert!(counted(&[hour; 2]).contains(&"of the same readings".to_string()));
        let name = "of one that is a repeat, reason 8".to_string();
        assert!(counted(&[hour; 3]).contains(&name));
    }

    #[test]
    fn a_reason_by_itself_and_near_misses_are_told() {
        let hour = hour_of((1, 300));
        let moist = with_moisture(hour, 1);
        assert_eq!(counted(&[hour, moist]), ["1", "1, with moisture alone"]);
        assert_eq!(counted(&[hour_of((9, 1)); 2]), ["2"]);
        assert_eq!(counted(&[hour_of((1, 0)); 2]), ["4, of hour 0"]);
        let upper = hour_of((257, 300));
        let names = [
            "an hour of its unit but for the upper byte",
            "all its bytes but those of the unit",
        ];
        assert_eq!(counted(&[upper, hour]), names);
        let mut other_kind = hour;
        other_kind[0] = 3;
        let names = ["its unit and number, kind 0 or 3 to 255"];
        assert_eq!(counted(&[other_kind, hour]), names);
        let exchanged = [hour_of((2, 1)), hour_of((1, 2))];
        let name = "an hour of unit and number exchanged".to_string();
        assert!(counted(&exchanged).contains(&name));
    }
}
