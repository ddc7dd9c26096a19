//! A sheet that is not marked, and two that are not joined, in words.

use dustroute::{Clash, JoinRefusal, List, Refusal, Unequal, WhichSheet};

use crate::words::capital;

/// Why a sheet is not marked.
#[must_use]
pub fn refused(name: &str, text: &[u8], refusal: Refusal) -> String {
    told(name, "not marked", text, refusal)
}

fn told(name: &str, what: &str, text: &[u8], refusal: Refusal) -> String {
    let number = refusal.reason.number();
    let why = capital(&refusal.explain(text));
    format!("{name}: {what} (refusal {number}). {why}.")
}

/// Why two sheets are not joined.
#[must_use]
pub fn not_joined(names: &[String; 2], texts: &[Vec<u8>; 2], refusal: &JoinRefusal) -> String {
    let ([first, second], [one, other]) = (names, texts);
    match refusal.sheet {
        WhichSheet::First => told(first, "not joined", one, refusal.refusal),
        WhichSheet::Second => told(second, "not joined", other, refusal.refusal),
        WhichSheet::Both => {
            let number = refusal.refusal.reason.number();
            let why = together(names, refusal);
            format!("{first} and {second}: not joined (refusal {number}). {why}.")
        }
    }
}

/// What two good sheets disagree in.
fn together([first, second]: &[String; 2], refusal: &JoinRefusal) -> String {
    match (refusal.clash, refusal.refusal.place) {
        (
            Some(Clash::Rules {
                first: one,
                second: other,
            }),
            _,
        ) => {
            format!("{first} is marked by {one}, and {second} by {other}")
        }
        (Some(Clash::Component(unequal)), _) => unlike(first, second, &unequal),
        (_, Some(place)) if place.list != List::Lines => {
            format!("Together they have more than {} {}", place.item, place.list)
        }
        _ => capital(&refusal.refusal.reason.to_string()),
    }
}

/// A block that is not the same on both. Lines are told from 1.
fn unlike(first: &str, second: &str, unequal: &Unequal) -> String {
    let fields = unequal.fields();
    let fields = fields.map(|(key, one, other)| format!("{key}={one} and {key}={other}"));
    let fields: Vec<String> = fields.collect();
    let lines = [unequal.first_line, unequal.second_line].map(|it| it + 1);
    format!(
        "Block {} is not the same on both (line {} of {first}, line {} of {second}): {}",
        unequal.second.id.0,
        lines[0],
        lines[1],
        fields.join(", ")
    )
}
