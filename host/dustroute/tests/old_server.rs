//! The old server's calls and the new one on the old server's own values.

#[path = "../examples/old_server.rs"]
mod old_server;

use dustroute_physical::{PhysicalScene, VerifiedTopology};
use dustroute_translate::analyze_signal_liveness;
use old_server::{groups_agree, liveness_agrees, marked, ports_agree, scene};
use oracle::lists;
use scenes::Profile;

type Failure = Box<dyn std::error::Error>;

#[test]
fn old_and_new_agree() -> Result<(), Failure> {
    let [mut count, mut inputs, mut inferred] = [0; 3];
    for profile in Profile::ALL {
        for seed in 0..if profile.is_large() { 4 } else { 200 } {
            let (given, case) = (
                profile.scene(seed),
                format!("{} seed {seed}", profile.name()),
            );
            let components = lists::components(&given.components);
            let connections = lists::connections(&given.connections);
            let observation = lists::observation(&given.frontiers);
            let new = marked(&scene(&components, &connections, &observation)?)?;

            let topology = VerifiedTopology::from_parts(components, connections);
            let old = PhysicalScene::from_unvalidated_topology(observation, &topology);
            assert!(groups_agree(&topology, &new.groups)?, "{case}");
            assert!(ports_agree(&old, &new)?, "{case}");
            assert!(
                liveness_agrees(&analyze_signal_liveness(&old), &new)?,
                "{case}"
            );
            count += 1;
            inputs += new.inputs.len();
            inferred += new
                .inputs
                .iter()
                .filter(|it| !it.inferred.is_empty())
                .count();
        }
    }
    println!(
        "old and new agree on {count} scenes with {inputs} inputs, {inferred} of which await one"
    );
    assert!(inputs > 1_000 && inferred > 100);
    Ok(())
}

/// An id of more than 32 bits, and a refusal, each with the block.
#[test]
fn what_is_refused_is_told_with_its_block() -> Result<(), Failure> {
    let observation = lists::observation(&[]);
    let far = lists::components(&[1 << 32, 0, 0, 0, 4, 0, 0, 0]);
    let said = scene(&far, &[], &observation).map_err(|it| it.to_string());
    let wanted = "the id 4294967296 has more than 32 bits";
    assert_eq!(said.err().as_deref(), Some(wanted));

    let twice = lists::components(&[7, 0, 0, 0, 4, 0, 0, 0, 7, 1, 0, 0, 4, 0, 0, 0]);
    let said = marked(&scene(&twice, &[], &observation)?).map_err(|it| it.to_string());
    let wanted = "refusal 5 at item 1 of the components: an id already used by an earlier \
        component: component number 2 (id 7): component number 1 (id 7) has the id 7 too";
    assert_eq!(said.err().as_deref(), Some(wanted));
    Ok(())
}
