//! Figures that a document prints, looked for in the bytes of an answer.

use second::answer::HEAD;

/// A number in the 64 bytes of an answer.
#[derive(Clone, Copy, Debug)]
pub enum Field {
    Number,
    Reason,
    Method,
    Ledger,
    Count,
    Co2Ug,
    Ch4Ng,
    N2oNg,
    FossilKg,
    BiomassKg,
    Ch4Kg,
    N2oKg,
    Co2eKg,
    MustReport,
}

/// What a field must hold: a number from `low` to `high`.
#[derive(Clone, Copy, Debug)]
pub struct Expectation {
    field: Field,
    low: u64,
    high: u64,
}

impl Field {
    pub fn is(self, value: u64) -> Expectation {
        self.between(value, value)
    }

    pub fn between(self, low: u64, high: u64) -> Expectation {
        Expectation {
            field: self,
            low,
            high,
        }
    }

    pub fn of(self, head: &[u8; HEAD]) -> u64 {
        let (place, width) = self.place();
        let bytes = head[place..place + width].iter().rev();
        bytes.fold(0, |value, &byte| value << 8 | u64::from(byte))
    }

    fn place(self) -> (usize, usize) {
        match self {
            Field::Number => (0, 1),
            Field::Reason => (1, 1),
            Field::Method => (2, 1),
            Field::Ledger => (3, 1),
            Field::Count => (4, 4),
            Field::Co2Ug | Field::FossilKg => (8, 8),
            Field::Ch4Ng | Field::BiomassKg => (16, 8),
            Field::N2oNg | Field::Ch4Kg => (24, 8),
            Field::N2oKg => (32, 8),
            Field::Co2eKg => (40, 8),
            Field::MustReport => (48, 1),
        }
    }
}

/// A report that is given: its five figures in kg, and its decision.
pub fn report(figures: [u64; 5], must_report: bool) -> Vec<Expectation> {
    let [fossil, biomass, ch4, n2o, co2e] = figures;
    vec![
        Field::Number.is(0),
        Field::FossilKg.is(fossil),
        Field::BiomassKg.is(biomass),
        Field::Ch4Kg.is(ch4),
        Field::N2oKg.is(n2o),
        Field::Co2eKg.is(co2e),
        Field::MustReport.is(u64::from(must_report)),
    ]
}

/// A report that is withheld, for the first record set aside and its reason.
pub fn withheld(first: u64, reason: u64) -> Vec<Expectation> {
    vec![
        Field::Number.is(41),
        Field::Count.is(first),
        Field::Reason.is(reason),
    ]
}

impl Expectation {
    /// What is wrong with an answer, if anything.
    pub fn complaint(&self, head: &[u8; HEAD]) -> Option<String> {
        let found = self.field.of(head);
        let Expectation { field, low, high } = *self;
        let wanted = if low == high {
            format!("{low}")
        } else {
            format!("{low} to {high}")
        };
        let fits = (low..=high).contains(&found);
        (!fits).then(|| format!("{field:?} is {found}, the document says {wanted}"))
    }
}
