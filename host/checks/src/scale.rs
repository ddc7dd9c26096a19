//! Long runs: scenes by the million, each told by its place in the run, in
//! chunks that print how far the run is.

use std::env;
use std::time::Instant;

use scenes::{Profile, Scene};

/// The places of a run.
#[derive(Clone, Copy, Debug)]
pub struct Run {
    pub from: u64,
    pub scenes: u64,
}

/// Scenes to a line of print.
const CHUNK: u64 = 100_000;

/// The seed of place 0, beyond all that the quick runs use.
const FIRST_SEED: u64 = 1_000_000;

/// One scene among so many may be as large as the limits.
const LARGE: u64 = 500;

impl Run {
    /// Ten million scenes, or as many as `SCALE_SCENES` says, from the place
    /// that `SCALE_FROM` says.
    #[must_use]
    pub fn asked_for() -> Self {
        let number = |name| env::var(name).ok().and_then(|text| text.parse().ok());
        Self {
            from: number("SCALE_FROM").unwrap_or(0),
            scenes: number("SCALE_SCENES").unwrap_or(10_000_000),
        }
    }

    /// Checks each scene; with it come its seed and words that name it.
    pub fn each(self, title: &str, mut check: impl FnMut(&Scene, u64, &str)) {
        let (start, end) = (Instant::now(), self.from + self.scenes);
        for first in (self.from..end).step_by(CHUNK.try_into().unwrap_or(1)) {
            let behind = end.min(first + CHUNK);
            for place in first..behind {
                let (profile, seed) = drawn(place);
                let case = format!("place {place}, {} seed {seed}", profile.name());
                check(&profile.scene(seed), seed, &case);
            }
            let seconds = start.elapsed().as_secs_f64();
            let rate = (behind - self.from) as f64 / seconds;
            let [seed, last] = [first, behind - 1].map(|place| drawn(place).1);
            println!(
                "{title}: places {first} to {}, seeds {seed} to {last}, {seconds:.0} s, {rate:.0} scenes a second",
                behind - 1
            );
        }
    }
}

/// The scene at a place: the profiles in turn, the large ones seldom.
fn drawn(place: u64) -> (Profile, u64) {
    let is_large = place % LARGE == LARGE - 1;
    let turn = if is_large { place / LARGE } else { place };
    let fit = Profile::ALL.iter().filter(|it| it.is_large() == is_large);
    let fit: Vec<Profile> = fit.copied().collect();
    let at = usize::try_from(turn).unwrap_or(0) % fit.len();
    (fit[at], FIRST_SEED + place)
}
