//! What was compared and found equal, counted by what the requirements tell apart.

mod analysed_gas;
mod anodes;
mod large_books;
mod low_heat;
mod moisture;
mod repeats;
mod rounding;
mod warming;

use second::answer::{Answer, Call, NO_SUCH_RECORD};
use second::bytes::u32_at;
use second::replay::FRAME_HEAD;

pub use moisture::flags_of;

use crate::draft::{ANALYSED_GAS, FUEL_RECORD, LINE};
use crate::repeats::{Kind, KINDS};
use crate::run::Run;
use crate::specials::{class, is_usable, CLASSES, FLOW_LIMIT, PERCENT_LIMIT};
use analysed_gas::AnalysedGasCounts;
use anodes::AnodeCounts;
use large_books::LargeBookCounts;
use low_heat::LowHeatCounts;
use moisture::MoistureCounts;
use repeats::asked::Asked;
use repeats::RepeatCounts;
use rounding::RoundingCounts;
use warming::WarmingCounts;

const NUMBERS: [u8; 10] = [0, 20, 21, 22, 23, 30, 31, 32, 40, 41];
/// "Numbers 20 to 23, 30, 31", and 0 where records are counted.
const NUMBERS_OF_LEFT: [u8; 7] = [0, 20, 21, 22, 23, 30, 31];
const METHODS: [u8; 6] = [0, 1, 2, 3, 4, NO_SUCH_RECORD];
const UNIT_LINES_WRONG: u8 = 22;
const SET_ASIDE: u8 = 41;

/// Names and their counts.
type Rows = Vec<(String, u64)>;

#[derive(Default)]
pub struct Counts {
    calls: [u64; 4],
    numbers: [u64; NUMBERS.len()],
    numbers_of_left: [u64; NUMBERS_OF_LEFT.len()],
    /// More than 16 bits count.
    many_left: u64,
    reasons_of_records: [u64; 8],
    reasons_of_refusals: [u64; 8],
    methods: [u64; METHODS.len()],
    ledgers: [u64; 3],
    percents: [u64; CLASSES.len()],
    flows: [u64; CLASSES.len()],
    analysed_gas: AnalysedGasCounts,
    anodes: AnodeCounts,
    large_books: LargeBookCounts,
    low_heat: LowHeatCounts,
    moisture: MoistureCounts,
    repeats: RepeatCounts,
    rounding: RoundingCounts,
    warming: WarmingCounts,
    latest: Option<Made>,
}

/// What a frame asks.
struct Question<'a> {
    call: u8,
    /// A wake's budget, or the index of one record.
    argument: u32,
    book: &'a [u8],
    checkpoint: &'a [u8],
}

/// A checkpoint, and the book of the fresh start or wake that made it.
struct Made {
    book: Vec<u8>,
    checkpoint: Vec<u8>,
}

impl Question<'_> {
    fn of(frame: &[u8]) -> Question<'_> {
        let [book, checkpoint] = [8, 12].map(|place| u32_at(frame, place) as usize);
        let (book, after_book) = frame[FRAME_HEAD..].split_at(book);
        Question {
            call: frame[0],
            argument: u32_at(frame, 4),
            book,
            checkpoint: &after_book[..checkpoint],
        }
    }
}

impl Counts {
    /// Counts one call from its frame and the answer of both sides.
    pub fn count(&mut self, frame: &[u8], answer: &Answer) {
        let [number, reason, ..] = answer.head;
        let question = Question::of(frame);
        if question.call == Call::Left as u8 {
            // Or the numbers of this call would stand for those of the others.
            add_at(&mut self.numbers_of_left, &NUMBERS_OF_LEFT, number);
            self.many_left += u64::from(u32_at(&answer.head, 4) >= 65_536);
            return;
        }
        self.calls[usize::from(question.call) - 1] += 1;
        self.large_books.count_frame(frame);
        self.large_books
            .count(&question, answer, self.latest.as_ref());
        self.warming.count(&question, answer, self.latest.as_ref());
        self.repeats.count(&question, answer, self.latest.as_ref());
        self.analysed_gas
            .count(&question, number, self.latest.as_ref());
        add_at(&mut self.numbers, &NUMBERS, number);
        if question.call == Call::Record as u8 && number == 0 {
            self.count_record(&question, answer);
        } else if number == SET_ASIDE {
            self.reasons_of_refusals[usize::from(reason) - 1] += 1;
        } else if number == UNIT_LINES_WRONG {
            self.moisture.count_unit_lines(question.book);
        }
        self.remember(&question, answer);
    }

    /// Counts a head that the other program stopped at, as the first of these bytes.
    pub fn count_stop(&mut self, bytes: &[u8]) {
        self.large_books.count_stop(bytes);
    }

    /// The checkpoint that a call has made.
    fn remember(&mut self, question: &Question, answer: &Answer) {
        let makes_one = [Call::Fresh as u8, Call::Wake as u8].contains(&question.call);
        if makes_one && answer.head[0] == 0 {
            self.latest = Some(Made {
                book: question.book.to_vec(),
                checkpoint: answer.output.clone(),
            });
        }
    }

    fn count_record(&mut self, question: &Question, answer: &Answer) {
        let [_, reason, method, ledger, ..] = answer.head;
        let (book, index) = (question.book, question.argument as usize);
        if reason > 0 {
            self.reasons_of_records[usize::from(reason) - 1] += 1;
        } else {
            add_at(&mut self.methods, &METHODS, method);
        }
        if method == NO_SUCH_RECORD {
            return;
        }
        if reason == 0 {
            self.ledgers[usize::from(ledger)] += 1;
        }
        let line = &book[LINE * index..][..LINE];
        let asked = Asked {
            book,
            index,
            reason,
        };
        match line[0] {
            FUEL_RECORD => self.low_heat.count(book, line, answer),
            ANALYSED_GAS => self.analysed_gas.count_record(&asked),
            _ => {}
        }
        match KINDS.into_iter().find(|kind| kind.byte_0() == line[0]) {
            Some(Kind::Hours) => {
                self.moisture.count_hour(book, line, answer);
                self.repeats.count_record(Kind::Hours, &asked);
                self.count_readings(line, reason);
            }
            Some(Kind::Anodes) => {
                self.anodes.count(&asked);
                self.repeats.count_record(Kind::Anodes, &asked);
            }
            None => {}
        }
    }

    /// Where the readings were judged. The flow is counted where it decides: "the
    /// percent is judged before the flow".
    fn count_readings(&mut self, line: &[u8], reason: u8) {
        if reason == 0 {
            self.rounding.count(line);
        }
        if ![0, 4, 5, 8].contains(&reason) {
            return;
        }
        let percent = class(u32_at(line, 8), PERCENT_LIMIT);
        self.percents[percent] += 1;
        if is_usable(percent) {
            self.flows[class(u32_at(line, 12), FLOW_LIMIT)] += 1;
        }
    }

    /// What is told apart, and for each part its name and count.
    pub fn table(&self, asks_left: bool) -> Vec<(&'static str, Rows)> {
        let named = |names: &[&str], counts: &[u64]| -> Rows {
            let names = names.iter().map(|name| name.to_string());
            names.zip(counts.iter().copied()).collect()
        };
        let numbers = NUMBERS.iter().map(u8::to_string).zip(self.numbers);
        let reasons = ["1", "2", "3", "4", "5", "6", "7", "8"];
        let methods = ["0 (no fuel)", "1", "2", "3", "4", "none (no such record)"];
        let calls = ["fresh", "wake", "report", "one record"];
        let mut table = vec![
            ("call", named(&calls, &self.calls)),
            ("number", numbers.collect()),
            ("record's reason", named(&reasons, &self.reasons_of_records)),
            (
                "refusal 41's reason",
                named(&reasons, &self.reasons_of_refusals),
            ),
            ("method", named(&methods, &self.methods)),
            (
                "ledger",
                named(&["none", "fossil", "biomass"], &self.ledgers),
            ),
            ("percent", named(&CLASSES, &self.percents)),
            ("flow", named(&CLASSES, &self.flows)),
            ("low value", self.low_heat.rows()),
        ];
        table.extend(self.rounding.table());
        table.extend(self.moisture.table());
        table.extend(self.anodes.table());
        table.extend(self.analysed_gas.table());
        table.extend(self.repeats.table());
        table.extend(self.warming.table());
        table.extend(self.large_books.table());
        if asks_left {
            table.extend(self.table_of_left());
        }
        table
    }

    fn table_of_left(&self) -> [(&'static str, Rows); 2] {
        let numbers = NUMBERS_OF_LEFT.iter().map(u8::to_string);
        let many = ("65,536 or more".to_string(), self.many_left);
        [
            (
                "records left, number",
                numbers.zip(self.numbers_of_left).collect(),
            ),
            ("records left,", vec![many]),
        ]
    }
}

fn add_at(counts: &mut [u64], keys: &[u8], key: u8) {
    if let Some(place) = keys.iter().position(|&known| known == key) {
        counts[place] += 1;
    }
}

/// Each count is one check: what was never compared is not known to agree.
pub fn tell(run: &mut Run) {
    println!("counts of what was compared:");
    for (subject, rows) in run.counts.table(run.settings.asks_left) {
        for (name, count) in rows {
            let row = format!("{subject} {name}");
            run.tell("counts", &format!("{row:<60}{count:>9}"), count > 0, "");
        }
    }
}
