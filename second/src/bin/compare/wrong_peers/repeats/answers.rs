//! What is answered where an hour, or anodes, are repeated.

use second::answer::{answer, Answer, Call, Frame};
use second::record::{judge, Addition, Co2Ledger, Judged, Reason};

use super::judging_places;
use crate::draft::{put, MOISTURE_PLACE};
use crate::repeats::Kind;

/// Records of a kind that stand in an earlier one, judged wrongly from what they are by
/// themselves.
pub(super) fn of_repeats(frame: &Frame, kind: Kind, wrong: impl Fn(Judged) -> Judged) -> Answer {
    judging_places(frame, |place| {
        let judged = judge(place.book, place.line());
        match (place.is_among(place.earlier()), place.is_of(kind)) {
            (true, true) => wrong(judged),
            (true, false) => judged.and(Err(Reason::Repeated)),
            (false, _) => judged,
        }
    })
}

/// Reason 8 before these.
pub(super) fn asking_before(frame: &Frame, kind: Kind, reasons: &[Reason]) -> Answer {
    of_repeats(frame, kind, |judged| match judged {
        Err(reason) if !reasons.contains(&reason) => Err(reason),
        _ => Err(Reason::Repeated),
    })
}

pub fn asks_for_repeats_before_the_monitor(frame: &Frame) -> Answer {
    asking_before(frame, Kind::Hours, &[Reason::HourWithoutMonitor])
}

pub fn asks_for_repeats_before_the_range(frame: &Frame) -> Answer {
    asking_before(
        frame,
        Kind::Hours,
        &[Reason::OutOfRange, Reason::HourWithoutMonitor],
    )
}

pub fn asks_for_repeats_before_the_unit(frame: &Frame) -> Answer {
    let later = [
        Reason::UnitNotListed,
        Reason::OutOfRange,
        Reason::HourWithoutMonitor,
    ];
    asking_before(frame, Kind::Hours, &later)
}

pub fn asks_for_repeats_before_the_form(frame: &Frame) -> Answer {
    let later = [
        Reason::Form,
        Reason::UnitNotListed,
        Reason::OutOfRange,
        Reason::HourWithoutMonitor,
    ];
    asking_before(frame, Kind::Hours, &later)
}

/// Where the form is right but for the moisture, whose reason is 1 too.
pub fn asks_for_repeats_before_moisture_on_a_wet_unit(frame: &Frame) -> Answer {
    judging_places(frame, |place| {
        let mut without = place.line().to_vec();
        put(&mut without, MOISTURE_PLACE, &[0, 0]);
        let is_repeated = place.is_among(place.earlier());
        match (judge(place.book, place.line()), judge(place.book, &without)) {
            (judged, Err(Reason::Form)) => judged,
            (Err(Reason::Form) | Ok(_), _) if is_repeated => Err(Reason::Repeated),
            (judged, _) => judged,
        }
    })
}

pub fn takes_a_repeat_for_out_of_range(frame: &Frame) -> Answer {
    of_repeats(frame, Kind::Hours, |judged| {
        judged.and(Err(Reason::OutOfRange))
    })
}

/// It adds nothing, and isn't set aside either.
pub fn lets_a_repeat_count_for_nothing(frame: &Frame) -> Answer {
    of_repeats(frame, Kind::Hours, |judged| {
        judged.map(|addition| Addition {
            ledger: Co2Ledger::None,
            co2_ug: 0,
            ..addition
        })
    })
}

pub fn turns_away_a_checkpoint_that_names_8(frame: &Frame) -> Answer {
    let mut checkpoint = frame.checkpoint.to_vec();
    if checkpoint.get(12) == Some(&8) {
        checkpoint[12] = 9;
    }
    answer(&Frame {
        checkpoint: &checkpoint,
        ..*frame
    })
}

/// As if none were set aside where a repeat is the first.
pub fn reports_in_spite_of_repeats(frame: &Frame) -> Answer {
    let answered = answer(frame);
    let [number, reason, ..] = answered.head;
    if frame.call != Call::Report || (number, reason) != (41, Reason::Repeated as u8) {
        return answered;
    }
    let mut checkpoint = frame.checkpoint.to_vec();
    checkpoint[4..13].fill(0);
    answer(&Frame {
        checkpoint: &checkpoint,
        ..*frame
    })
}
