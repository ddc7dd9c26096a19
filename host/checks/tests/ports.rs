//! The proved port connections against the unchanged Rust's scene builder, on
//! accepted scenes.

use checks::runs::{self, Seeds};
use checks::{Counted, Ports};
use scenes::limits::{COMPONENT, COMPONENTS, FAR, KEPT_ROW, LAST_FACE, LAST_KIND};
use scenes::random::Random;
use scenes::{Lent, Profile, Scene};

#[test]
fn on_every_small_scene() {
    let mut ports = Ports::default();
    runs::on_small_scenes(|scene, case| {
        ports.call(scene, Lent::enough(scene).ports, &case);
    });
    ports.assert_all_accepted("ports, small scenes");
}

#[test]
fn on_every_profile() {
    let mut ports = Ports::default();
    let seeds = Seeds {
        small: 3_000,
        large: 60,
    };
    runs::on_profiles(seeds, |scene, _, case| {
        ports.call(scene, Lent::enough(scene).ports, &case);
    });
    ports.assert_all_accepted("ports, profiles");
}

/// Two blocks with their faces drawn, the first in a given cell.
fn two_blocks(cell: [i64; 3], step: [i64; 3], kinds: [i64; 2], random: &mut Random) -> Scene {
    let there = [0, 1, 2].map(|axis| cell[axis] + step[axis]);
    let mut block = |id, [x, y, z]: [i64; 3], kind| {
        let faces = [random.between(0, LAST_FACE), random.between(0, LAST_FACE)];
        [id, x, y, z, kind, faces[0], faces[1], random.between(0, 1)]
    };
    let mut records: [[i64; COMPONENT]; 2] = [block(0, cell, kinds[0]), block(1, there, kinds[1])];
    records.sort_unstable_by_key(|&[id, x, y, z, ..]| [x, y, z, id]);
    with_every_connection(records.concat())
}

/// Component 0 connected to component 1 by every kind.
fn with_every_connection(components: Vec<i64>) -> Scene {
    Scene {
        components,
        connections: (0..10).flat_map(|kind| [0, 1, kind]).collect(),
        ..Scene::default()
    }
}

/// Two blocks of every kind, every step from -2 to 2, every kind of
/// connection at once; at the origin and in the corners of the range.
#[test]
fn on_every_step_between_two_blocks() {
    let mut ports = Ports::default();
    let random = &mut Random::new(1);
    let corners = [[0; 3], [-FAR; 3], [FAR; 3], [FAR, -FAR, FAR]];
    for corner in corners {
        for step in 0..125 {
            let step = [step / 25 - 2, step / 5 % 5 - 2, step % 5 - 2];
            let is_outside = (0..3).any(|axis| (corner[axis] + step[axis]).abs() > FAR);
            for kinds in 0..13 * 13 {
                let scene = two_blocks(corner, step, [kinds % 13, kinds / 13], random);
                let case = format!("corner {corner:?} step {step:?}");
                if !is_outside {
                    ports.call(&scene, 10 * KEPT_ROW, &case);
                }
            }
        }
    }
    ports.assert_all_accepted("ports, steps between two blocks");
}

/// Kind, facing, support and conducts: every block that has ports of its own.
fn blocks() -> Vec<[i64; 4]> {
    let of_kind = |kind| -> Vec<[i64; 4]> {
        match kind {
            1 | 2 | 8 => (0..=LAST_FACE).map(|facing| [kind, facing, 0, 0]).collect(),
            3 => (0..=LAST_FACE)
                .map(|support| [kind, 0, support, 0])
                .collect(),
            9..=11 => (0..=1).map(|conducts| [kind, 0, 0, conducts]).collect(),
            _ => vec![[kind, 0, 0, 0]],
        }
    };
    (0..=LAST_KIND).flat_map(of_kind).collect()
}

/// Any two blocks beside each other, on every step that has a face.
#[test]
fn on_every_pair_of_neighbours() {
    let mut ports = Ports::default();
    for step in 0..27 {
        let [x, y, z] = [step / 9 - 1, step / 3 % 3 - 1, step % 3 - 1];
        if (x == 0) == (z == 0) && (x != 0 || y == 0) {
            continue;
        }
        for source in blocks() {
            for sink in blocks() {
                let component =
                    |id, cell: [i64; 3], block: [i64; 4]| [&[id][..], &cell, &block].concat();
                let mut records = [component(0, [0; 3], source), component(1, [x, y, z], sink)];
                records.sort_unstable_by_key(|record| [record[1], record[2], record[3]]);
                let scene = with_every_connection(records.concat());
                let case = format!("{source:?} to {sink:?}");
                ports.call(&scene, 10 * KEPT_ROW, &case);
            }
        }
    }
    ports.assert_all_accepted("ports, neighbours");
    assert_eq!(ports.count_of(0), 14 * 40 * 40);
}

#[test]
fn on_plots_of_every_size() {
    let mut ports = Ports::default();
    let sizes = [8, 64, 256, 512, COMPONENTS - 1, COMPONENTS];
    runs::on_plots(&sizes, 6, |scene, case| {
        ports.call(scene, Lent::enough(scene).ports, &case);
    });
    ports.assert_all_accepted("ports, plots of every size");
}

/// What lies behind the rows stays as it was; a number too few is refused.
#[test]
fn with_slices_of_every_length() {
    let mut ports = Ports::default();
    let seeds = Seeds {
        small: 200,
        large: 4,
    };
    runs::on_profiles(seeds, |scene, _, case| {
        let enough = Lent::enough(scene).ports;
        for lent in [
            0,
            enough.saturating_sub(6),
            enough.saturating_sub(1),
            enough + 1,
            enough + 5,
            enough + 6,
            enough + 1_000,
        ] {
            ports.call(scene, lent, &case);
        }
    });
    ports.print("ports, slices of every length");
    assert!(ports.count_of(0) > 0 && ports.count_of(2) > 0);
}

#[test]
fn within_one_mebibyte_of_stack() -> std::io::Result<()> {
    runs::within_one_mebibyte_of_stack(|| {
        let scene = Profile::Full.scene(3);
        Ports::default().call(&scene, Lent::enough(&scene).ports, &"small stack");
    })
}
