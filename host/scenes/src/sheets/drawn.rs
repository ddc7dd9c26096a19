//! Sheets drawn from a seed: of either form, under every rules number.

use super::forms::{Form, spelled_out, write_form};
use super::within;
use crate::limits::{LAST_RULES, RULES_OF_THE_RUST};
use crate::random::Random;
use crate::sheets::Limits;
use crate::{Profile, Scene, blanks, lamps};

/// A sheet, and what it says.
#[derive(Clone, Debug, Eq, PartialEq)]
pub struct Drawn {
    pub form: Form,
    pub rules: i64,
    pub scene: Scene,
    /// As its form and rules are written; seldom an old one spells out `rules=1`.
    pub text: Vec<u8>,
}

/// A small valid scene: a profile's, or one with lamps or with blank facings.
fn scene(seed: u64, random: &mut Random) -> Scene {
    let small = Profile::ALL.into_iter().filter(|it| !it.is_large());
    let small: Vec<Profile> = small.collect();
    match random.below(small.len() + 3) {
        place if place < small.len() => small[place].scene(seed),
        place if place == small.len() => lamps::scene(seed),
        _ => blanks::scene(seed),
    }
}

/// The sheet of a seed: forms and rules go round.
#[must_use]
pub fn sheet(seed: u64) -> Drawn {
    let random = &mut Random::new(seed ^ (0x5e_u64 << 56));
    let turn = seed.cast_signed();
    let rules = 1 + turn.rem_euclid(LAST_RULES);
    let form = if turn / LAST_RULES % 2 == 0 {
        Form::Old
    } else {
        Form::Short
    };
    let scene = within(Limits::SCENE, &scene(seed, random));
    let is_spelled = rules == RULES_OF_THE_RUST && form == Form::Old && random.once_in(3);
    let text = if is_spelled {
        spelled_out(rules, &scene)
    } else {
        write_form(form, rules, &scene)
    };
    Drawn {
        form,
        rules,
        scene,
        text,
    }
}
