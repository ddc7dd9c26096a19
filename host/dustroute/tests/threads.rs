//! Eighty thousand calls from eight threads at once: every function, on plots of every
//! profile, answers as it does alone.

mod typed;

use std::hash::{DefaultHasher, Hash, Hasher};
use std::thread;

use dustroute::{
    PortRef, Rules, block_ports, check_trail, clear, convert, driven, groups, input, left_out,
    light, liveness, mark, ports, reach_table, read_sheet, report, rings, self_test, trail,
    what_if, what_if_joined,
};
use scenes::Profile;
use scenes::sheets::forms::{Form, write_form};
use typed::Lists;

const THREADS: usize = 8;
const CALLS: usize = 10_000;

/// A plot, also as a sheet, and a port of it to ask for.
struct Plot {
    rules: Rules,
    lists: Lists,
    text: Vec<u8>,
    port: PortRef,
}

fn plots() -> Vec<Plot> {
    let small = Profile::ALL.into_iter().filter(|it| !it.is_large());
    let scenes = small.flat_map(|profile| (0..7).map(move |seed| profile.scene(900 + seed)));
    let rules = Rules::ALL.into_iter().cycle();
    let plots = scenes.zip(rules).filter_map(|(scene, rules)| {
        let text = write_form(Form::Short, rules.number(), &scene);
        let lists = Lists::of(&scene)?;
        let found = liveness(rules, &lists.components, &lists.ports, &[]).ok()?;
        let port = found.inputs.last().map(|it| it.input);
        let id = lists.components.last()?.id;
        Some(Plot {
            rules,
            lists,
            text,
            port: port.unwrap_or(PortRef::new(id, 1)),
        })
    });
    plots.collect()
}

/// A digest of what a function answers or how it refuses.
fn digest(answer: &impl std::fmt::Debug) -> u64 {
    let mut hasher = DefaultHasher::new();
    format!("{answer:?}").hash(&mut hasher);
    hasher.finish()
}

const FUNCTIONS: [fn(&Plot) -> u64; 20] =
    [
        |it| {
            digest(&groups(
                it.rules,
                &it.lists.components,
                &it.lists.connections,
            ))
        },
        |it| {
            digest(&liveness(
                it.rules,
                &it.lists.components,
                &it.lists.ports,
                &it.lists.frontiers,
            ))
        },
        |it| {
            digest(&ports(
                it.rules,
                &it.lists.components,
                &it.lists.connections,
            ))
        },
        |it| {
            digest(&left_out(
                it.rules,
                &it.lists.components,
                &it.lists.connections,
            ))
        },
        |it| {
            digest(
                &it.lists
                    .components
                    .first()
                    .map(|block| block_ports(it.rules, block)),
            )
        },
        |it| {
            digest(&driven(
                it.rules,
                &it.lists.components,
                &it.lists.ports,
                &it.lists.frontiers,
                it.port,
            ))
        },
        |it| {
            digest(&input(
                it.rules,
                &it.lists.components,
                &it.lists.ports,
                &it.lists.frontiers,
                it.port,
            ))
        },
        |it| {
            digest(&trail(
                it.rules,
                &it.lists.components,
                &it.lists.ports,
                &it.lists.frontiers,
                it.port,
            ))
        },
        |it| {
            let ids: Vec<_> = it.lists.components.iter().map(|block| block.id).collect();
            digest(&check_trail(
                it.rules,
                &it.lists.components,
                &it.lists.ports,
                &it.lists.frontiers,
                it.port,
                &ids,
            ))
        },
        |it| {
            digest(&clear(
                it.rules,
                &it.lists.components,
                &it.lists.ports,
                &it.lists.frontiers,
            ))
        },
        |it| {
            digest(&light(
                it.rules,
                &it.lists.components,
                &it.lists.ports,
                &it.lists.frontiers,
            ))
        },
        |it| {
            digest(&rings(
                it.rules,
                &it.lists.components,
                &it.lists.ports,
                &it.lists.frontiers,
            ))
        },
        |it| {
            digest(&reach_table(
                it.rules,
                &it.lists.components,
                &it.lists.ports,
                &it.lists.frontiers,
            ))
        },
        |it| {
            digest(&it.lists.ports.first().map(|one| {
                what_if(
                    it.rules,
                    &it.lists.components,
                    &it.lists.ports,
                    &it.lists.frontiers,
                    *one,
                )
            }))
        },
        |it| {
            digest(&it.lists.connections.first().map(|one| {
                what_if_joined(it.rules, &it.lists.components, &it.lists.connections, *one)
            }))
        },
        |it| {
            digest(&mark(
                it.rules,
                &it.lists.components,
                &it.lists.connections,
                &it.lists.frontiers,
            ))
        },
        |it| digest(&read_sheet(&it.text)),
        |it| digest(&report(&it.text)),
        |it| digest(&convert(&it.text)),
        |_| digest(&self_test()),
    ];

#[test]
fn eighty_thousand_calls_from_eight_threads() {
    let plots = plots();
    assert!(plots.len() > 40);
    let each = plots
        .iter()
        .flat_map(|plot| FUNCTIONS.map(|call| (plot, call)));
    let each: Vec<_> = each.map(|(plot, call)| (plot, call, call(plot))).collect();
    let (each, mut count) = (&each, 0);
    thread::scope(|scope| {
        let threads: [_; THREADS] = std::array::from_fn(|turn| {
            scope.spawn(move || {
                let begin = turn * each.len() / THREADS;
                let mut count = 0;
                for (plot, call, alone) in each.iter().cycle().skip(begin).take(CALLS) {
                    assert_eq!(call(plot), *alone);
                    count += 1;
                }
                count
            })
        });
        count += threads
            .into_iter()
            .map(|it| it.join().unwrap_or(0))
            .sum::<usize>();
    });
    println!(
        "{count} calls from {THREADS} threads, on {} plots",
        plots.len()
    );
    assert_eq!(count, THREADS * CALLS);
}
