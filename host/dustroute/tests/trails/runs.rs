//! Calls held to what must come of them.

use std::collections::BTreeSet;

use dustroute::{RequiredInputStatus, liveness};
use scenes::Scene;
use scenes::random::Random;

use super::{DIRT, Plot, RULES, check, find, number, of, refusal_of_driven};
use crate::typed::Lists;

/// What was asked, and what came of it.
#[derive(Default)]
pub struct Runs {
    pub found: u64,
    pub longest: usize,
    pub not_driven: u64,
    no_verdict: u64,
    pub refused: u64,
    short: u64,
    accepted: u64,
    rejected: u64,
}

const SHORT: u64 = 2 + 256 * 3;
const NO_VERDICT: u64 = 8 + 256 * 3;
pub const NOT_DRIVEN: u64 = 10 + 256 * 3;

impl Runs {
    /// A finder's call: its list one place over, exact and one place short.
    pub fn hold_finder(
        &mut self,
        scene: &Scene,
        asked: [u64; 2],
        wanted: Result<&[u64], u64>,
        case: &str,
    ) {
        let count = scene.components.len() / 8;
        for places in [count + 3, count, count.saturating_sub(1)] {
            let mut ids = vec![DIRT; places];
            let answer = find(scene, asked, &mut ids);
            // 2 comes after 1, and before all others.
            if places < count && !matches!(wanted, Err(refusal) if refusal & 0xff == 1) {
                assert_eq!(answer, SHORT, "{case} {asked:?}");
                assert!(ids.iter().all(|it| *it == DIRT), "{case}: written");
                self.short += 1;
                continue;
            }
            match wanted {
                Ok(way) => {
                    assert_eq!(answer, 65_536 * way.len() as u64, "{case} {asked:?}");
                    assert_eq!(ids.get(..way.len()), Some(way), "{case} {asked:?}");
                    assert!(ids.iter().skip(way.len()).all(|it| *it == DIRT), "{case}");
                    self.found += 1;
                    self.longest = self.longest.max(way.len());
                }
                Err(refusal) => {
                    assert_eq!(answer, refusal, "{case} {asked:?}");
                    assert!(ids.iter().all(|it| *it == DIRT), "{case}: written");
                    self.not_driven += u64::from(refusal == NOT_DRIVEN);
                    self.no_verdict += u64::from(refusal == NO_VERDICT);
                }
            }
        }
    }

    pub fn hold_check(
        &mut self,
        scene: &Scene,
        asked: [u64; 2],
        ids: &[u64],
        wanted: bool,
        case: &str,
    ) {
        let answer = check(scene, asked, ids);
        assert_eq!(
            answer,
            65_536 * u64::from(wanted),
            "{case} {asked:?} {ids:?}"
        );
        self.accepted += u64::from(wanted);
        self.rejected += u64::from(!wanted);
    }

    /// A list's fault is told by both, as by the question of one input.
    pub fn hold_refusal(&mut self, scene: &Scene, asked: [u64; 2], case: &str) {
        let refusal = refusal_of_driven(scene, asked);
        assert_ne!(refusal, 0, "{case}");
        self.hold_finder(scene, asked, Err(refusal), case);
        assert_eq!(check(scene, asked, &[1, 2]), refusal, "{case}");
        self.refused += 1;
    }

    /// Lists near a trail: a member dropped, twice, exchanged for another, the
    /// ends turned round, one more before and after, and some at random.
    fn near(way: &[u64], ids: &[u64], random: &mut Random) -> Vec<Vec<u64>> {
        let mut lists = vec![vec![], way.to_vec()];
        for place in 0..way.len().min(6) {
            let mut dropped = way.to_vec();
            let id = dropped.remove(place);
            lists.push(dropped);
            let mut twice = way.to_vec();
            twice.insert(place, id);
            lists.push(twice);
            if !ids.is_empty() {
                let mut other = way.to_vec();
                other[place] = random.pick(ids);
                lists.push(other);
            }
        }
        let mut turned = way.to_vec();
        turned.reverse();
        lists.push(turned);
        for id in [random.below(12) as u64, u64::MAX, 1 << 32] {
            lists.push([&[id], way].concat());
            lists.push([way, &[id]].concat());
        }
        if !ids.is_empty() {
            let length = 1 + random.below(5);
            lists.push((0..length).map(|_| random.pick(ids)).collect());
        }
        lists
    }

    /// Every verdict of a scene, with lists near its trail, and ports without.
    pub fn hold(&mut self, scene: &Scene, random: &mut Random, most: usize, case: &str) {
        // A damaged number may be no kind or face, and a grouping connection,
        // which has no part in this, may be damaged.
        let Some(lists) = Lists::of(scene) else {
            if refusal_of_driven(scene, [1, 1]) != 0 {
                self.hold_refusal(scene, [1, 1], case);
            }
            return;
        };
        let Ok(whole) = liveness(RULES, &lists.components, &lists.ports, &lists.frontiers) else {
            return self.hold_refusal(scene, [1, 1], case);
        };
        let plot = Plot::of(&lists.ports, &whole);
        let ids: Vec<u64> = lists.components.iter().map(|it| number(it.id)).collect();
        for row in whole.inputs.iter().take(most) {
            let asked = [number(row.input.component), u64::from(row.input.port)];
            let best = plot.best(row.input);
            let driven = row.status == RequiredInputStatus::DrivenByKnownSource;
            assert_eq!(best.is_some(), driven, "{case}: {row:?}");
            self.hold_finder(scene, asked, best.as_deref().ok_or(NOT_DRIVEN), case);
            let way = best.unwrap_or_default();
            for list in Self::near(&way, &ids, random) {
                let wanted = plot.is_trail(row.input, &list);
                self.hold_check(scene, asked, &list, wanted, case);
            }
        }
        let verdicts: BTreeSet<[u64; 2]> = whole.inputs.iter().map(|row| of(row.input)).collect();
        for _ in 0..2 {
            let id = if ids.is_empty() || random.once_in(3) {
                random.below(9) as u64
            } else {
                random.pick(&ids)
            };
            let asked = [id, [0, 1, 4, 255, 256, u64::MAX][random.below(6)]];
            if !verdicts.contains(&asked) {
                self.hold_finder(scene, asked, Err(NO_VERDICT), case);
                assert_eq!(check(scene, asked, &[id]), NO_VERDICT, "{case} {asked:?}");
            }
        }
    }

    pub fn told(&self, name: &str) {
        println!(
            "{name}: {} trails found, of up to {} ids, {} inputs not driven, {} without a verdict, \
             {} of lists too short; {} lists accepted and {} not; {} scenes refused",
            self.found,
            self.longest,
            self.not_driven,
            self.no_verdict,
            self.short,
            self.accepted,
            self.rejected,
            self.refused
        );
        assert!(self.found > 100 && self.not_driven > 100 && self.accepted > 100);
        assert!(self.rejected > 100 && self.short > 100);
    }
}
