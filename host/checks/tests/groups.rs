//! Nets, fragments and a fragment's nets by the proved entry against the
//! unchanged Rust, on accepted scenes.

use checks::runs::{self, Seeds};
use checks::{ByteLists, Counted, Groups};
use probe::ports::fragment_net;
use scenes::limits::{COMPONENTS, CONNECTION, LAST_CONNECTION_KIND};
use scenes::random::Random;
use scenes::{Profile, Scene, bytes, exhaustive};

#[test]
fn on_every_small_scene() {
    let mut groups = Groups::default();
    runs::on_small_scenes(|scene, case| groups.call(&ByteLists::of(scene), &case));
    groups.assert_all_accepted("groups, small scenes");
}

/// Every order of joins of four, with all their ties.
#[test]
fn on_every_graph_over_four() {
    let mut groups = Groups::default();
    for (place, scene) in exhaustive::graphs().enumerate() {
        groups.call(&ByteLists::of(&scene), &format!("graph {place}"));
    }
    groups.assert_all_accepted("groups, graphs over four");
    assert_eq!(groups.count_of(0), 24 * 4_096);
}

#[test]
fn on_every_profile() {
    let mut groups = Groups::default();
    let seeds = Seeds {
        small: 3_000,
        large: 80,
    };
    runs::on_profiles(seeds, |scene, _, case| {
        groups.call(&ByteLists::of(scene), &case);
    });
    groups.assert_all_accepted("groups, profiles");
}

/// The same pairs joined by any kinds, so that nets and fragments differ.
fn with_other_kinds(scene: &Scene, seed: u64) -> Scene {
    let random = &mut Random::new(seed);
    let rows = scene.connections.chunks_exact(CONNECTION);
    let mut rows: Vec<[i64; CONNECTION]> = rows
        .map(|row| [row[0], row[1], random.between(0, LAST_CONNECTION_KIND)])
        .collect();
    rows.sort_unstable();
    rows.dedup();
    Scene {
        connections: rows.concat(),
        ..scene.clone()
    }
}

/// Joins of equal ranks up to the highest, with one kind in doubt and without.
#[test]
fn on_deep_merges() {
    let mut groups = Groups::default();
    let mut by_rank = [[0_u32; 11]; 2];
    for seed in 0..120 {
        for profile in [Profile::DeepMerge, Profile::Chain] {
            let scene = profile.scene(seed);
            for scene in [with_other_kinds(&scene, seed), scene] {
                let case = format!("{} seed {seed}, kinds or others", profile.name());
                groups.call(&ByteLists::of(&scene), &case);
                let ranks = paper::greatest_ranks(&scene.components, &scene.connections);
                for (counts, rank) in by_rank.iter_mut().zip(ranks) {
                    counts[usize::try_from(rank).unwrap_or(0)] += 1;
                }
            }
        }
    }
    groups.assert_all_accepted("groups, deep merges");
    println!("  scenes by greatest rank of nets and of fragments: {by_rank:?}");
    assert!(by_rank.iter().all(|counts| counts[10] > 0));
}

#[test]
fn on_plots_of_every_size() {
    let mut groups = Groups::default();
    let sizes = [8, 64, 255, 256, 257, 512, COMPONENTS - 1, COMPONENTS];
    runs::on_plots(&sizes, 4, |scene, case| {
        groups.call(&ByteLists::of(scene), &case);
    });
    groups.assert_all_accepted("groups, plots of every size");
}

/// What lies behind the rows stays as it was; a byte too few is refused.
#[test]
fn with_slices_of_every_length() {
    let mut groups = Groups::default();
    let seeds = Seeds {
        small: 100,
        large: 4,
    };
    runs::on_profiles(seeds, |scene, _, case| {
        let enough = ByteLists::of(scene);
        let lengths = lengths(enough.nets);
        for (place, &nets) in lengths.iter().enumerate() {
            let other = lengths[(place + 1) % lengths.len()];
            for fragments in [enough.fragments, nets, other] {
                let lists = ByteLists {
                    nets,
                    fragments,
                    ..enough.clone()
                };
                groups.call(&lists, &case);
            }
        }
    });
    groups.print("groups, slices of every length");
    assert!(groups.count_of(0) > 0 && groups.count_of(2) > 0);
}

fn lengths(enough: usize) -> [usize; 9] {
    [
        enough,
        enough.saturating_sub(1),
        enough.saturating_sub(bytes::NUMBER),
        0,
        enough + 1,
        enough + bytes::NUMBER - 1,
        enough + bytes::NUMBER,
        enough + 100,
        COMPONENTS * bytes::NUMBER + 8_001,
    ]
}

/// A fragment's nets are told from any numbers; the shorter list counts.
#[test]
fn nets_of_fragments_of_any_numbers() {
    let numbers = [0, 1, 2, 63, 64, 1_023, 1_024, 1 << 32, u64::MAX];
    let mut shared = 0;
    for seed in 0..20_000 {
        let random = &mut Random::new(seed);
        let mut list = || -> Vec<u64> {
            let length = random.below(8);
            (0..length).map(|_| random.pick(&numbers)).collect()
        };
        let (nets, fragments) = (list(), list());
        for fragment in numbers {
            for net in numbers.into_iter().chain([1, 65]) {
                let mut pairs = nets.iter().zip(&fragments);
                let wanted = net < 1_024 && pairs.any(|pair| pair == (&net, &fragment));
                let given = fragment_net(&nets, &fragments, fragment, net);
                let case = format!("seed {seed}, net {net} of fragment {fragment}");
                assert_eq!(given, u64::from(wanted), "{case}: {nets:?} {fragments:?}");
                shared += given;
            }
        }
    }
    println!("nets of fragments of any numbers: {shared} shared");
    assert!(shared > 0);
}

#[test]
fn within_one_mebibyte_of_stack() -> std::io::Result<()> {
    runs::within_one_mebibyte_of_stack(|| {
        let mut groups = Groups::default();
        for profile in [Profile::Full, Profile::DeepMerge] {
            groups.call(&ByteLists::of(&profile.scene(3)), &"small stack");
        }
    })
}
