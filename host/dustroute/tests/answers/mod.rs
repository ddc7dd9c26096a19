//! Typed answers held to answers in plain numbers.

use dustroute::{ComponentId, ComponentLiveness, Liveness};

pub fn signed(numbers: impl Iterator<Item = usize>) -> Vec<i64> {
    numbers.map(|number| number as i64).collect()
}

fn number(id: ComponentId) -> i64 {
    i64::from(id.0)
}

/// The rising ids of the components for which something holds.
fn ids(given: &Liveness, holds: fn(&ComponentLiveness) -> bool) -> Vec<i64> {
    let some = given.components.iter().filter(|it| holds(it));
    let mut ids: Vec<i64> = some.map(|it| number(it.id)).collect();
    ids.sort_unstable();
    ids
}

/// Every part of the answer, but for the sets of each input, which are not typed.
pub fn hold_liveness(given: &Liveness, wanted: &oracle::Liveness, case: &str) {
    let regions = signed(given.components.iter().map(|it| it.region));
    assert_eq!(regions, wanted.region, "{case}");
    let members = given.region_members();
    assert_eq!(given.regions.len(), wanted.regions.len(), "{case}");
    for ((region, members), wanted) in given.regions.iter().zip(members).zip(&wanted.regions) {
        let members: Vec<i64> = members.into_iter().map(number).collect();
        assert_eq!(members, wanted.members, "{case}");
        let flags = [region.cyclic, region.has_drive];
        assert_eq!(
            flags,
            [wanted.cyclic, wanted.contains_drive_source],
            "{case}"
        );
    }
    let sources = given.sources.iter();
    let sources: Vec<[i64; 2]> = sources
        .map(|it| [number(it.component), it.kind as i64])
        .collect();
    assert_eq!(sources, wanted.sources, "{case}");
    assert_eq!(ids(given, |it| it.drive), wanted.drive, "{case}");
    assert_eq!(ids(given, |it| it.potential), wanted.potential, "{case}");
    let inputs = given.inputs.iter().map(|it| {
        let device = number(it.input.component);
        [device, i64::from(it.input.port), it.status as i64]
    });
    let wanted = wanted.inputs.iter();
    let wanted = wanted.map(|it| [it.device, it.port, it.status]);
    assert!(inputs.eq(wanted), "{case}");
}
