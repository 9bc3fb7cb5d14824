//! Why no method is permitted for a delivery: docs/RULES.md, "Method".

use crate::book::{in_tenths, Unit};
use crate::fuel::{Class, Fuel};
use crate::reasons::Account;
use crate::record::Delivery;

/// In tenths of MMBtu/h. Above, a default heat doesn't do, and a measured one not for every class.
const HIGHEST_FOR_DEFAULT: u32 = 2500;

/// Says why none is permitted. None if one is, for all that can be seen here.
pub fn no_method(delivery: &Delivery, unit: &Unit, fuel: &Fuel) -> Option<Account> {
    if unit.monitor.is_some() || delivery.carbon.is_some() {
        return None;
    }
    let is_large = unit.rating > HIGHEST_FOR_DEFAULT;
    let by_heat = matches!(fuel.class, Class::NaturalGas | Class::DistillateOil);
    match delivery.heat {
        Some(_) if is_large && !by_heat => Some(heat_of_other_class(unit, fuel)),
        None if fuel.heat == 0 => Some(no_heat(unit, fuel, is_large, by_heat)),
        None if is_large => Some(default_heat(unit, by_heat)),
        _ => None,
    }
}

fn heat_of_other_class(unit: &Unit, fuel: &Fuel) -> Account {
    Account {
        why: format!(
            "{}, above {}, where a measured heat does for natural-gas and distillate-oil alone, \
             and fuel {} is {}",
            rating(unit),
            in_tenths(HIGHEST_FOR_DEFAULT),
            fuel.number,
            fuel.class.word()
        ),
        remedy: format!("give the measured carbon too{}", or_rating(unit)),
    }
}

fn default_heat(unit: &Unit, by_heat: bool) -> Account {
    let measured = if by_heat { "heat or carbon" } else { "carbon" };
    Account {
        why: format!(
            "{}, above {}, where a default heat doesn't do",
            rating(unit),
            in_tenths(HIGHEST_FOR_DEFAULT)
        ),
        remedy: format!("give the measured {measured}{}", or_rating(unit)),
    }
}

/// Carbon alone wouldn't do: CH4 and N2O need a heat in use.
fn no_heat(unit: &Unit, fuel: &Fuel, is_large: bool, by_heat: bool) -> Account {
    let number = fuel.number;
    Account {
        why: format!(
            "{}, nothing was measured, and fuel {number} has no default heat",
            rating(unit)
        ),
        remedy: match (is_large, by_heat) {
            (false, _) => format!("give the measured heat, or give fuel {number} a default heat"),
            (true, true) => "give the measured heat".to_string(),
            (true, false) => "give the measured heat and carbon".to_string(),
        },
    }
}

fn rating(unit: &Unit) -> String {
    format!("unit {} has rating {}", unit.number, in_tenths(unit.rating))
}

fn or_rating(unit: &Unit) -> String {
    format!(", or correct the rating of unit {}", unit.number)
}
