//! The scenes that several tests run on, each with words that name it.

use std::io;
use std::thread::Builder;

use scenes::damage::{List, garbage, pair, single};
use scenes::random::Random;
use scenes::sized::Shape;
use scenes::{Profile, Scene, exhaustive};

/// How many seeds a profile is given: fewer where its scenes are large.
#[derive(Clone, Copy, Debug)]
pub struct Seeds {
    pub small: u64,
    pub large: u64,
}

/// Every small scene.
pub fn on_small_scenes(mut check: impl FnMut(&Scene, &str)) {
    for (place, scene) in exhaustive::scenes().enumerate() {
        check(&scene, &format!("scene {place}"));
    }
}

/// Scenes of every profile, with their seeds.
pub fn on_profiles(seeds: Seeds, mut check: impl FnMut(&Scene, u64, &str)) {
    for profile in Profile::ALL {
        let count = if profile.is_large() {
            seeds.large
        } else {
            seeds.small
        };
        for seed in 0..count {
            let case = format!("{} seed {seed}", profile.name());
            check(&profile.scene(seed), seed, &case);
        }
    }
}

/// Plots of every shape.
pub fn on_plots(sizes: &[usize], seeds: u64, mut check: impl FnMut(&Scene, &str)) {
    for shape in Shape::ALL {
        for &size in sizes {
            for seed in 0..seeds {
                let case = format!("{} of {size} seed {seed}", shape.name());
                check(&shape.scene(size, seed), &case);
            }
        }
    }
}

/// Scenes of every profile with each single damage of these lists.
pub fn on_single_damage(seeds: Seeds, lists: &[List], mut check: impl FnMut(&Scene, &str)) {
    on_profiles(seeds, |scene, _, case| {
        let damages = single(scene).into_iter();
        for damage in damages.filter(|it| lists.contains(&it.list)) {
            check(&damage.apply(scene), &format!("{case} {damage:?}"));
        }
    });
}

/// Scenes of every profile with two faults, four times each.
pub fn on_two_faults(seeds: Seeds, mut check: impl FnMut(&Scene, &mut Random, &str)) {
    on_profiles(seeds, |scene, seed, case| {
        let random = &mut Random::new(seed);
        for _ in 0..4 {
            if let Some([first, second]) = pair(scene, random) {
                let damaged = second.apply(&first.apply(scene));
                check(&damaged, random, &format!("{case} {first:?} {second:?}"));
            }
        }
    });
}

/// Lists of any numbers.
pub fn on_garbage(seeds: u64, mut check: impl FnMut(&Scene, &mut Random, &str)) {
    for seed in 0..seeds {
        let random = &mut Random::new(seed);
        let scene = garbage(random);
        check(&scene, random, &format!("garbage seed {seed}"));
    }
}

/// A server's threads have little stack.
///
/// # Errors
/// Where no thread can be started.
///
/// # Panics
/// Where the run does.
pub fn within_one_mebibyte_of_stack(run: impl FnOnce() + Send + 'static) -> io::Result<()> {
    let thread = Builder::new().stack_size(1 << 20).spawn(run)?;
    assert!(thread.join().is_ok());
    Ok(())
}
