//! The report of a held plot is that of a fresh list of the same blocks, and a plot
//! that was saved with a fault is never marked.

use dustroute::{
    BlockKind, Component, ComponentId, Facing, HeldPlot, PortConnection, PortRef, Position, Reason,
    Rules, TransferKind, liveness,
};

/// xorshift.
struct Random(u64);

impl Random {
    fn below(&mut self, n: u64) -> u64 {
        self.0 ^= self.0 << 13;
        self.0 ^= self.0 >> 7;
        self.0 ^= self.0 << 17;
        (self.0 >> 11) % n
    }

    fn of<T: Copy>(&mut self, table: &[T]) -> T {
        table[self.below(table.len() as u64) as usize]
    }

    fn block(&mut self, ids: u64) -> Component {
        let mut at = || self.below(7) as i32 - 3;
        let position = Position::new(at(), at(), at());
        let id = ComponentId(self.below(ids) as u32);
        Component {
            facing: [None, Some(self.of(&Facing::ALL))][self.below(2) as usize],
            support: Some(self.of(&Facing::ALL)),
            ..Component::new(id, position, self.of(&BlockKind::ALL))
        }
    }

    fn wire(&mut self, ids: u64) -> PortConnection {
        let mut end = || PortRef::new(ComponentId(self.below(ids) as u32), self.below(5) as u8);
        PortConnection {
            source: end(),
            sink: end(),
            transfer: self.of(&TransferKind::ALL),
        }
    }
}

fn hold(plot: &HeldPlot, rules: Rules, case: &str) {
    let (components, connections) = (plot.components(), plot.connections());
    let fresh = liveness(rules, &components, &connections, &plot.frontiers());
    assert!(fresh.is_ok(), "{case}: {fresh:?}");
    assert_eq!(plot.liveness(), fresh, "{case}");
    assert_eq!(HeldPlot::load(&plot.save()).as_ref(), Ok(plot), "{case}");
}

#[test]
fn reports_are_those_of_fresh_lists() {
    let mut reports = 0;
    for seed in 0..60 {
        let mut random = Random(2 * seed + 1);
        let rules = [Rules::One, Rules::Two, Rules::Three][seed as usize % 3];
        let frontiers: Vec<Position> = (0..seed % 4)
            .map(|k| Position::new(k as i32, 0, 0))
            .collect();
        let mut plot = HeldPlot::open(rules, &frontiers).unwrap();
        let ids = [12, 60, 1_500][seed as usize % 3];
        for click in 0..700 {
            let _ = match random.below(10) {
                0..4 => plot.place(&random.block(ids)).map(|_| ()),
                4 => plot.break_block(ComponentId(random.below(ids) as u32)),
                _ => plot.connect(&random.wire(ids)),
            };
            if click % 25 == 24 {
                hold(&plot, rules, &format!("seed {seed}, click {click}"));
                reports += 1;
            }
        }
    }
    println!("reports compared: {reports}");
}

#[test]
fn what_was_saved_with_a_fault_is_told() {
    let mut random = Random(77);
    let mut plot = HeldPlot::open(Rules::Two, &[]).unwrap();
    for _ in 0..200 {
        let _ = plot.place(&random.block(90));
        let _ = plot.connect(&random.wire(90));
    }
    let saved = plot.save();
    let mut strange = 0;
    for _ in 0..400 {
        let mut damaged = saved.clone();
        let place = random.below(saved.len() as u64) as usize;
        damaged[place] ^= 1 << random.below(8);
        match HeldPlot::load(&damaged) {
            Ok(other) => hold(&other, other.rules().unwrap(), &place.to_string()),
            Err(refusal) => {
                assert_eq!((refusal.reason, refusal.place), (Reason::StrangePlot, None));
                strange += 1;
            }
        }
    }
    println!("damaged: {strange} of 400 told");
    assert!(strange > 300);
    for len in [0, 8, saved.len() - 1, saved.len() - 8] {
        let refused = HeldPlot::load(&saved[..len]).map_err(|it| it.reason);
        assert_eq!(refused, Err(Reason::StrangePlot));
    }
    let longer = [&saved[..], &[0; 8]].concat();
    assert!(HeldPlot::load(&longer).is_err());
}
