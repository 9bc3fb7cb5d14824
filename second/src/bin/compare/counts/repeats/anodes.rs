//! What was compared of anodes and the records before them.

use second::bytes::{u16_at, u32_at};

use super::asked::{impurities, key, number, unit, Asked};
use super::records::Tables;
use crate::draft::{
    ANODES, DRY, FULL_BOOK, HOUR, LAST_MONTH, MONITORED, MOST_IMPURITY, MOST_METAL, MOST_USE,
};

pub const TABLES: Tables = Tables {
    names: [
        "anodes that repeat",
        "repeated anodes with reason",
        "anodes counted after",
    ],
    repeats: &[
        ("ones that counted", |asked| {
            asked.stands_in_one(0, |_| true)
        }),
        ("ones with a flag, reason 1", |asked| {
            asked.stands_in_one(1, |line| line[1] > 0)
        }),
        ("ones with a fuel number, reason 1", |asked| {
            asked.stands_in_one(1, |line| u16_at(line, 4) > 0)
        }),
        ("ones with a byte after the impurities, reason 1", |asked| {
            asked.stands_in_one(1, |line| line[22..].iter().any(|&byte| byte > 0))
        }),
        ("ones with metal past its limit, reason 4", |asked| {
            asked.stands_in_one(4, |line| u32_at(line, 8) > MOST_METAL)
        }),
        ("ones with use past its limit, reason 4", |asked| {
            asked.stands_in_one(4, |line| u32_at(line, 12) > MOST_USE)
        }),
        ("ones with an impurity past its limit, reason 4", |asked| {
            asked.stands_in_one(4, |line| impurities(line).iter().any(is_past))
        }),
        ("ones with impurities past it in all, reason 4", |asked| {
            asked.stands_in_one(4, is_past_in_all)
        }),
        ("ones that are a repeat, reason 8", |asked| {
            asked.same().count() == 2
        }),
        ("more than ten", |asked| asked.same().count() > 10),
        ("ones of the same values", |asked| {
            asked.same().all(|other| other[8..] == asked.line()[8..])
        }),
        ("ones of another metal", |asked| {
            asked
                .same()
                .all(|other| other[8..12] != asked.line()[8..12])
        }),
        ("ones of another use", |asked| {
            asked
                .same()
                .all(|other| other[12..16] != asked.line()[12..16])
        }),
        ("ones of other impurities", |asked| {
            asked
                .same()
                .all(|other| other[16..22] != asked.line()[16..22])
        }),
        ("the record before", |asked| asked.distance() == Some(1)),
        ("over one record to a hundred", |asked| {
            asked.distance().is_some_and(|far| (2..=101).contains(&far))
        }),
        ("over more than a hundred", |asked| {
            asked.distance().is_some_and(|far| far > 101)
        }),
        ("over more than a thousand", |asked| {
            asked.distance().is_some_and(|far| far > 1_001)
        }),
        ("an hour of their number before them", |asked| {
            asked.resembles(|other, line| other[0] == HOUR && key(other) == key(line))
        }),
        ("month 1", |asked| number(asked.line()) == 1),
        ("month 12", |asked| number(asked.line()) == LAST_MONTH),
        ("unit 1", |asked| unit(asked.line()) == 1),
        ("unit 65,535", |asked| unit(asked.line()) == u16::MAX),
        ("without a monitor", |asked| asked.flags() == Some(0)),
        ("on a wet unit", |asked| asked.flags() == Some(MONITORED)),
        ("on a dry unit", |asked| {
            asked.flags() == Some(MONITORED | DRY)
        }),
        ("in a full book", |asked| asked.book.len() == FULL_BOOK),
    ],
    other_reasons: &[
        ("1", |asked| asked.reason == 1),
        ("2", |asked| asked.reason == 2),
        ("2, of unit 0", |asked| unit(asked.line()) == 0),
        ("4, of month 0", |asked| {
            asked.reason == 4 && number(asked.line()) == 0
        }),
        ("4, of month 13", |asked| {
            asked.reason == 4 && number(asked.line()) == 13
        }),
        ("4, of a month past 255", |asked| {
            asked.reason == 4 && number(asked.line()) > 255
        }),
        ("4, with metal past its limit", |asked| {
            asked.reason == 4 && u32_at(asked.line(), 8) > MOST_METAL
        }),
        ("4, with use past its limit", |asked| {
            asked.reason == 4 && u32_at(asked.line(), 12) > MOST_USE
        }),
        ("4, with impurities past it in all", |asked| {
            asked.reason == 4 && is_past_in_all(asked.line())
        }),
    ],
    near_misses: &[
        ("anodes of their unit but for the lower byte", |asked| {
            resembles_anodes(asked, |other, line| {
                other[3] == line[3] && other[6..8] == line[6..8]
            })
        }),
        ("anodes of their unit but for the upper byte", |asked| {
            resembles_anodes(asked, |other, line| {
                other[2] == line[2] && other[6..8] == line[6..8]
            })
        }),
        ("anodes of another month of the unit", |asked| {
            resembles_anodes(asked, |other, line| {
                other[2..4] == line[2..4] && (1..=LAST_MONTH).contains(&number(other))
            })
        }),
        ("anodes of their month but for the upper byte", |asked| {
            resembles_anodes(asked, |other, line| {
                other[2..4] == line[2..4] && other[6] == line[6]
            })
        }),
        ("anodes of unit and month exchanged", |asked| {
            resembles_anodes(asked, |other, line| {
                key(other) == [number(line), unit(line)]
            })
        }),
        ("their unit and month, fuel", |asked| {
            resembles_kind(asked, |kind| kind == 1)
        }),
        ("their unit and month, an hour", |asked| {
            resembles_kind(asked, |kind| kind == HOUR)
        }),
        ("their unit and month, kind 3", |asked| {
            resembles_kind(asked, |kind| kind == 3)
        }),
        ("their unit and month, kind 0 or 5 to 255", |asked| {
            resembles_kind(asked, |kind| kind == 0 || kind > ANODES)
        }),
        ("all their bytes but those of the month", |asked| {
            asked.resembles(|other, line| other[..6] == line[..6] && other[8..] == line[8..])
        }),
        ("all their bytes but those of the unit", |asked| {
            asked.resembles(|other, line| other[..2] == line[..2] && other[4..] == line[4..])
        }),
    ],
};

fn is_past(impurity: &u32) -> bool {
    *impurity > u32::from(MOST_IMPURITY)
}

/// Though none of them is by itself.
fn is_past_in_all(line: &[u8]) -> bool {
    let impurities = impurities(line);
    !impurities.iter().any(is_past) && is_past(&impurities.iter().sum())
}

/// Another anode record before these.
fn resembles_anodes(asked: &Asked, is_so: fn(&[u8], &[u8]) -> bool) -> bool {
    asked.resembles(|other, line| other[0] == ANODES && is_so(other, line))
}

fn resembles_kind(asked: &Asked, is_so: fn(u8) -> bool) -> bool {
    asked.resembles(|other, line| is_so(other[0]) && key(other) == key(line))
}

#[cfg(test)]
mod tests {
    use super::super::records::counted;
    use super::*;
    use crate::draft::Line;
    use crate::repeats::Kind;

    type Edit = fn(&mut Line);

    fn edited(edit: Edit) -> Line {
        let mut line = Kind::Anodes.record((1, 7));
        edit(&mut line);
        line
    }

    /// The anodes before the last, and the name of one thing that is counted then.
    #[test]
    fn repeats_are_told_by_what_stood_before() {
        let firsts: [(Edit, &str); 9] = [
            (|_| {}, "ones that counted"),
            (|_| {}, "ones of the same values"),
            (|line| line[8] = 1, "ones of another metal"),
            (|line| line[12] = 1, "ones of another use"),
            (|line| line[16] = 1, "ones of other impurities"),
            (|line| line[4] = 1, "ones with a fuel number, reason 1"),
            (
                |line| line[11] = 9,
                "ones with metal past its limit, reason 4",
            ),
            (
                |line| line[16..18].fill(0x27),
                "ones with an impurity past its limit, reason 4",
            ),
            (
                |line| line[16..18].copy_from_slice(&[0, 0x27]),
                "ones with impurities past it in all, reason 4",
            ),
        ];
        for (edit, name) in firsts {
            let found = counted(&TABLES, &[edited(edit), edited(|_| {})]);
            assert!(found.contains(&name.to_string()), "{name}: {found:?}");
        }
    }

    #[test]
    fn a_reason_by_itself_and_near_misses_are_told() {
        let none = Kind::Anodes.record((1, 13));
        assert_eq!(counted(&TABLES, &[none; 2]), ["4, of month 13"]);
        assert_eq!(counted(&TABLES, &[Kind::Anodes.record((9, 1)); 2]), ["2"]);
        let hour = Kind::Hours.record((1, 7));
        let anodes = Kind::Anodes.record((1, 7));
        let names = ["their unit and month, an hour"];
        assert_eq!(counted(&TABLES, &[hour, anodes]), names);
        let upper = Kind::Anodes.record((257, 7));
        let names = [
            "anodes of their unit but for the upper byte",
            "all their bytes but those of the unit",
        ];
        assert_eq!(counted(&TABLES, &[upper, anodes]), names);
    }
}
