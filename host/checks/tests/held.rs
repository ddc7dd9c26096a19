//! A plot held open: random clicks by the hundred thousand against a plain model,
//! every answer and every number of the four slices compared; damaged plots; slices
//! one number short and one over; threads.

use std::collections::BTreeMap;
use std::thread;

// The archive is linked with it.
use dustroute as _;

const COMPONENTS: usize = 1_024;
const CONNECTIONS: usize = 4_096;
const LENGTHS: [usize; 4] = [5 + COMPONENTS, 256 * 3, COMPONENTS * 8, CONNECTIONS * 5];

#[allow(clippy::too_many_arguments)]
mod raw {
    unsafe extern "C" {
        pub fn dustroute_open(
            rules: i64,
            given: *const i64,
            given_len: usize,
            state: *mut i64,
            state_len: usize,
            frontiers: *mut i64,
            frontiers_len: usize,
            places: *mut i64,
            places_len: usize,
            connections: *mut i64,
            connections_len: usize,
        ) -> u64;
        pub fn dustroute_place(
            state: *mut i64,
            state_len: usize,
            frontiers: *const i64,
            frontiers_len: usize,
            places: *mut i64,
            places_len: usize,
            connections: *const i64,
            connections_len: usize,
            block: *const i64,
            block_len: usize,
        ) -> u64;
        pub fn dustroute_break(
            state: *mut i64,
            state_len: usize,
            frontiers: *const i64,
            frontiers_len: usize,
            places: *mut i64,
            places_len: usize,
            connections: *mut i64,
            connections_len: usize,
            id: u64,
        ) -> u64;
        pub fn dustroute_connect(
            state: *mut i64,
            state_len: usize,
            frontiers: *const i64,
            frontiers_len: usize,
            places: *const i64,
            places_len: usize,
            connections: *mut i64,
            connections_len: usize,
            connection: *const i64,
            connection_len: usize,
        ) -> u64;
        pub fn dustroute_held_liveness(
            state: *const i64,
            state_len: usize,
            frontiers: *const i64,
            frontiers_len: usize,
            places: *const i64,
            places_len: usize,
            connections: *const i64,
            connections_len: usize,
            components: *mut i64,
            components_len: usize,
            regions: *mut u64,
            regions_len: usize,
            sources: *mut u64,
            sources_len: usize,
            inputs: *mut u64,
            inputs_len: usize,
            sets: *mut u64,
            sets_len: usize,
            stack: *mut usize,
            stack_len: usize,
        ) -> u64;
    }
}

/// State, frontiers, places, connections.
#[derive(Clone, Debug, Eq, PartialEq)]
struct Slices([Vec<i64>; 4]);

impl Slices {
    fn new(lengths: [usize; 4], filling: i64) -> Self {
        Self(lengths.map(|len| vec![filling; len]))
    }

    fn open(&mut self, rules: i64, given: &[i64]) -> u64 {
        let [s, f, p, c] = &mut self.0;
        // SAFETY: whole slices, of which none overlaps another; so in all calls here.
        unsafe {
            raw::dustroute_open(
                rules,
                given.as_ptr(),
                given.len(),
                s.as_mut_ptr(),
                s.len(),
                f.as_mut_ptr(),
                f.len(),
                p.as_mut_ptr(),
                p.len(),
                c.as_mut_ptr(),
                c.len(),
            )
        }
    }

    fn place(&mut self, block: &[i64]) -> u64 {
        let [s, f, p, c] = &mut self.0;
        unsafe {
            raw::dustroute_place(
                s.as_mut_ptr(),
                s.len(),
                f.as_ptr(),
                f.len(),
                p.as_mut_ptr(),
                p.len(),
                c.as_ptr(),
                c.len(),
                block.as_ptr(),
                block.len(),
            )
        }
    }

    fn break_block(&mut self, id: u64) -> u64 {
        let [s, f, p, c] = &mut self.0;
        unsafe {
            raw::dustroute_break(
                s.as_mut_ptr(),
                s.len(),
                f.as_ptr(),
                f.len(),
                p.as_mut_ptr(),
                p.len(),
                c.as_mut_ptr(),
                c.len(),
                id,
            )
        }
    }

    fn connect(&mut self, numbers: &[i64]) -> u64 {
        let [s, f, p, c] = &mut self.0;
        unsafe {
            raw::dustroute_connect(
                s.as_mut_ptr(),
                s.len(),
                f.as_ptr(),
                f.len(),
                p.as_ptr(),
                p.len(),
                c.as_mut_ptr(),
                c.len(),
                numbers.as_ptr(),
                numbers.len(),
            )
        }
    }

    fn report(&self, report: &mut Report) -> u64 {
        let [s, f, p, c] = &self.0;
        let Report {
            components,
            numbers: [regions, sources, inputs, sets],
            stack,
        } = report;
        unsafe {
            raw::dustroute_held_liveness(
                s.as_ptr(),
                s.len(),
                f.as_ptr(),
                f.len(),
                p.as_ptr(),
                p.len(),
                c.as_ptr(),
                c.len(),
                components.as_mut_ptr(),
                components.len(),
                regions.as_mut_ptr(),
                regions.len(),
                sources.as_mut_ptr(),
                sources.len(),
                inputs.as_mut_ptr(),
                inputs.len(),
                sets.as_mut_ptr(),
                sets.len(),
                stack.as_mut_ptr(),
                stack.len(),
            )
        }
    }

    /// Whether the report says that no clicks can leave it.
    fn is_strange(&self) -> bool {
        let mut none = Report::new([0; 6], 0);
        let answer = self.report(&mut none);
        assert!([18 + 768, 2 + 768].contains(&(answer & 0xffff)), "{answer}");
        answer & 0xff == 18
    }
}

#[derive(Clone, Debug, Eq, PartialEq)]
struct Report {
    components: Vec<i64>,
    numbers: [Vec<u64>; 4],
    stack: Vec<usize>,
}

impl Report {
    fn new([c, r, s, i, sets, stack]: [usize; 6], filling: u8) -> Self {
        Self {
            components: vec![filling.into(); c],
            numbers: [r, s, i, sets].map(|len| vec![filling.into(); len]),
            stack: vec![filling.into(); stack],
        }
    }

    fn rooms(present: usize) -> [usize; 6] {
        [
            8 * present,
            present,
            4 * present,
            12 * present,
            64,
            2 * present,
        ]
    }
}

/// What is held, as plainly as can be.
#[derive(Clone, Default)]
struct Model {
    rules: i64,
    frontiers: Vec<i64>,
    places: Vec<Option<[i64; 8]>>,
    ids: BTreeMap<i64, usize>,
    freed: Vec<usize>,
    connections: Vec<[i64; 5]>,
}

const STRANGE: [i64; 3] = [18, 3, 0];
const FAR: i64 = 30_000_000;
const ID: i64 = 4_294_967_295;
const BLOCK: [(i64, i64); 8] = [
    (0, ID),
    (-FAR, FAR),
    (-FAR, FAR),
    (-FAR, FAR),
    (0, 12),
    (0, 6),
    (0, 6),
    (0, 1),
];
const WIRE: [(i64, i64); 5] = [(0, ID), (0, 255), (0, ID), (0, 255), (0, 6)];

fn packed([number, list, item]: [i64; 3]) -> u64 {
    u64::try_from(number + 256 * list + 65_536 * item).unwrap()
}

fn fits(numbers: &[i64], ranges: &[(i64, i64)]) -> bool {
    numbers.len() == ranges.len()
        && numbers
            .iter()
            .zip(ranges)
            .all(|(it, (low, high))| low <= it && it <= high)
}

impl Model {
    fn counts(&self) -> u64 {
        (self.ids.len() as u64) << 16 | (self.connections.len() as u64) << 32
    }

    fn place(&mut self, block: &[i64]) -> u64 {
        if !fits(block, &BLOCK) {
            return packed([3, 0, 0]);
        }
        if self.ids.contains_key(&block[0]) {
            return packed([16, 3, 0]);
        }
        if self.ids.len() == COMPONENTS {
            return packed([15, 3, 0]);
        }
        let place = self.freed.pop().unwrap_or(self.places.len());
        if place == self.places.len() {
            self.places.push(None);
        }
        self.places[place] = Some(block.try_into().unwrap());
        self.ids.insert(block[0], place);
        (place as u64) << 16
    }

    fn break_block(&mut self, id: u64) -> u64 {
        let Some(place) = i64::try_from(id).ok().and_then(|id| self.ids.remove(&id)) else {
            return packed([17, 3, 0]);
        };
        self.places[place] = None;
        self.freed.push(place);
        let id = id as i64;
        self.connections.retain(|it| it[0] != id && it[2] != id);
        self.counts()
    }

    fn connect(&mut self, numbers: &[i64]) -> u64 {
        if !fits(numbers, &WIRE) {
            return packed([3, 1, 0]);
        }
        if ![numbers[0], numbers[2]]
            .iter()
            .all(|id| self.ids.contains_key(id))
        {
            return packed([17, 3, 0]);
        }
        let numbers: [i64; 5] = numbers.try_into().unwrap();
        if !self.connections.contains(&numbers) {
            if self.connections.len() == CONNECTIONS {
                return packed([1, 1, CONNECTIONS as i64]);
            }
            self.connections.push(numbers);
        }
        self.counts()
    }

    /// The four slices, of these lengths.
    fn slices(&self, lengths: [usize; 4]) -> Slices {
        let counts = [
            self.places.len(),
            self.freed.len(),
            self.connections.len(),
            self.frontiers.len() / 3,
        ];
        let mut state = vec![self.rules];
        state.extend(counts.iter().chain(&self.freed).map(|it| *it as i64));
        let places = self
            .places
            .iter()
            .flat_map(|it| it.unwrap_or_default())
            .collect();
        let lists = [
            state,
            self.frontiers.clone(),
            places,
            self.connections.concat(),
        ];
        let mut slices = Slices(lists);
        for (list, len) in slices.0.iter_mut().zip(lengths) {
            list.resize(len, 0);
        }
        slices
    }
}

/// xorshift.
struct Random(u64);

impl Random {
    fn below(&mut self, n: u64) -> u64 {
        self.0 ^= self.0 << 13;
        self.0 ^= self.0 >> 7;
        self.0 ^= self.0 << 17;
        (self.0 >> 11) % n
    }

    fn of(&mut self, (low, high): (i64, i64)) -> i64 {
        match self.below(400) {
            0 => low - 1,
            1 => high + 1,
            2 => low,
            3 => high,
            _ => low + self.below((high - low).min(40) as u64 + 1) as i64,
        }
    }
}

/// How often each number was answered, 0 for accepted.
type Tally = [usize; 19];

fn click(random: &mut Random, spread: u64, model: &mut Model, slices: &mut Slices) -> [u64; 2] {
    let id = |random: &mut Random| random.below(spread) as i64;
    match random.below(20) {
        0..9 => {
            let mut block: Vec<i64> = BLOCK.iter().map(|it| random.of(*it)).collect();
            if random.below(50) != 0 {
                block[0] = id(random);
            }
            if random.below(300) == 0 {
                block.pop();
            }
            [model.place(&block), slices.place(&block)]
        }
        9..13 if spread < 4_000 || random.below(4) == 0 => {
            let id = if random.below(100) == 0 {
                u64::MAX
            } else {
                id(random) as u64
            };
            [model.break_block(id), slices.break_block(id)]
        }
        _ => {
            let mut wire: Vec<i64> = WIRE.iter().map(|it| random.of(*it)).collect();
            (wire[0], wire[2]) = (id(random), id(random));
            if random.below(300) == 0 {
                wire[2] = -1;
            }
            [model.connect(&wire), slices.connect(&wire)]
        }
    }
}

fn number(answer: u64) -> usize {
    usize::from(answer as u8)
}

/// Random clicks on one plot, all compared.
fn build(seed: u64, clicks: usize, spread: u64, lengths: [usize; 4]) -> Tally {
    let mut random = Random(seed * 2 + 1);
    let given: Vec<i64> = (0..3 * random.below(5)).map(|it| it as i64 - 4).collect();
    let mut model = Model {
        rules: 1 + random.below(3) as i64,
        frontiers: given.clone(),
        ..Model::default()
    };
    let mut slices = Slices::new(lengths, -7);
    assert_eq!(slices.open(model.rules, &given), 0);
    let mut tally = [0; 19];
    for turn in 0..clicks {
        let before = slices.clone();
        let [wanted, found] = click(&mut random, spread, &mut model, &mut slices);
        assert_eq!(found, wanted, "seed {seed}, click {turn}");
        tally[number(found)] += 1;
        if number(found) != 0 {
            assert_eq!(slices, before, "seed {seed}, click {turn}");
        }
        assert_eq!(slices, model.slices(lengths), "seed {seed}, click {turn}");
    }
    tally
}

#[test]
fn clicks_are_those_of_the_model() {
    let threads = (0..8).map(|thread| {
        let small = thread::Builder::new().stack_size(1 << 20);
        let run = move || {
            let mut tally = [0; 19];
            for round in 0..10 {
                let spread = [6, 40, 700, 1_200, 60_000][round % 5];
                let over = LENGTHS.map(|it| it + round % 2 * 3);
                let part = build(thread * 100 + round as u64, 1_300, spread, over);
                tally.iter_mut().zip(part).for_each(|(all, it)| *all += it);
            }
            tally
        };
        small.spawn(run).unwrap()
    });
    let threads: Vec<_> = threads.collect();
    let mut tally = [0; 19];
    for thread in threads {
        let part: Tally = thread.join().unwrap();
        tally.iter_mut().zip(part).for_each(|(all, it)| *all += it);
    }
    println!("clicks by number: {tally:?}");
    assert!([0, 3, 16, 17].iter().all(|it| tally[*it] > 0), "{tally:?}");
}

/// A plot of so many blocks, and connections from the first to each up to a count.
fn full(blocks: usize, wires: usize) -> (Model, Slices) {
    let mut model = Model {
        rules: 2,
        ..Model::default()
    };
    let mut slices = Slices::new(LENGTHS, 1);
    slices.open(2, &[]);
    for k in 0..blocks as i64 {
        let block = [k, k, 0, 0, 0, 0, 0, 0];
        assert_eq!(slices.place(&block), model.place(&block));
    }
    for k in 0..wires {
        let wire = [(k / 256) as i64, (k % 256) as i64, 3, 0, 0];
        model.connect(&wire);
    }
    let slices = model.slices(LENGTHS);
    assert!(!slices.is_strange());
    (model, slices)
}

#[test]
fn a_full_plot_says_so_last() {
    let (mut model, mut slices) = full(COMPONENTS, CONNECTIONS);
    for (block, number) in [
        ([4, 0, 0, 0, 0, 0, 0, 0], 16),
        ([5_000, 0, 0, 0, 13, 0, 0, 0], 3),
        ([5_000, 0, 0, 0, 0, 0, 0, 0], 15),
    ] {
        let found = slices.place(&block);
        assert_eq!((found & 0xff, found), (number, model.place(&block)));
    }
    for (wire, number) in [
        ([0, 0, 3, 0, 0], 0),
        ([0, 0, 3, 0, 1], 1),
        ([0, 0, 5_000, 0, 1], 17),
        ([0, 0, 5_000, 256, 1], 3),
    ] {
        let found = slices.connect(&wire);
        assert_eq!((found & 0xff, found), (number, model.connect(&wire)));
    }
    assert_eq!(slices.break_block(3), model.break_block(3));
    assert_eq!(slices, model.slices(LENGTHS));
    assert_eq!(slices.break_block(9), model.break_block(9));
    let block = [5_000, 0, 0, 0, 0, 0, 0, 0];
    assert_eq!(slices.place(&block), 9 << 16);
    model.place(&block);
    assert_eq!(slices, model.slices(LENGTHS));
}

/// Reads a plot as slowly as the words of number 18 say: whether clicks can leave it.
fn can_be_left(slices: &Slices) -> bool {
    let [state, frontiers, places, connections] = &slices.0;
    let count = |k: usize, most: usize| usize::try_from(state[k]).ok().filter(|it| *it <= most);
    let (Some(used), Some(freed), Some(held), Some(given)) = (
        count(1, COMPONENTS),
        count(2, COMPONENTS),
        count(3, CONNECTIONS),
        count(4, 256),
    ) else {
        return false;
    };
    let freed: Vec<i64> = state[5..5 + freed].to_vec();
    let blocks: Vec<&[i64]> = (0..used)
        .filter(|k| !freed.contains(&(*k as i64)))
        .map(|k| &places[8 * k..8 * k + 8])
        .collect();
    let wires: Vec<&[i64]> = connections[..5 * held].chunks(5).collect();
    let distinct = |list: &[i64]| (1..list.len()).all(|k| !list[..k].contains(&list[k]));
    let ids: Vec<i64> = blocks.iter().map(|it| it[0]).collect();
    let zero = |list: &[i64]| list.iter().all(|it| *it == 0);
    (1..=3).contains(&state[0])
        && frontiers[..3 * given]
            .iter()
            .all(|it| (-FAR..=FAR).contains(it))
        && distinct(&freed)
        && freed.iter().all(|k| {
            (0..used as i64).contains(k) && zero(&places[8 * *k as usize..8 * *k as usize + 8])
        })
        && blocks.iter().all(|it| fits(it, &BLOCK))
        && distinct(&ids)
        && wires
            .iter()
            .all(|it| fits(it, &WIRE) && ids.contains(&it[0]) && ids.contains(&it[2]))
        && (1..wires.len()).all(|k| !wires[..k].contains(&wires[k]))
        && zero(&state[5 + freed.len()..])
        && zero(&frontiers[3 * given..])
        && zero(&places[8 * used..])
        && zero(&connections[5 * held..])
}

#[test]
fn damaged_plots_are_told() {
    let mut slices = Slices::new(LENGTHS, 9);
    slices.open(3, &[1, 2, 3, 4, 5, 6]);
    for id in [7, 0, 5, 9] {
        slices.place(&[id, id, 0, 0, 4, 0, 0, 0]);
    }
    slices.connect(&[7, 0, 0, 1, 6]);
    slices.connect(&[5, 0, 5, 1, 2]);
    slices.connect(&[5, 0, 0, 1, 2]);
    slices.break_block(9);
    assert!(!slices.is_strange() && can_be_left(&slices));
    let mut tally = [0; 2];
    for list in 0..4 {
        let ends = [12, 9, 40, 18][list];
        let last = LENGTHS[list] - 1;
        for place in (0..ends).chain([last - 1, last]) {
            for value in [
                -1,
                0,
                1,
                2,
                3,
                4,
                5,
                6,
                7,
                9,
                12,
                13,
                255,
                256,
                257,
                1_024,
                1_025,
                4_096,
                4_097,
                FAR,
                FAR + 1,
                -FAR - 1,
                ID,
                ID + 1,
                i64::MAX,
                i64::MIN,
            ] {
                let mut damaged = slices.clone();
                damaged.0[list][place] = value;
                let strange = damaged.is_strange();
                let case = format!("slice {list}, number {place}: {value}");
                assert_eq!(strange, !can_be_left(&damaged), "{case}");
                tally[usize::from(strange)] += 1;
                if strange {
                    let before = damaged.clone();
                    let wanted = packed(STRANGE);
                    assert_eq!(damaged.place(&[1, 2, 3]), wanted, "{case}");
                    assert_eq!(damaged.break_block(77), wanted, "{case}");
                    assert_eq!(damaged.connect(&[]), wanted, "{case}");
                    assert_eq!(damaged, before, "{case}");
                }
            }
        }
    }
    println!("damaged plots: {tally:?} can be left, cannot");
    assert!(tally.iter().all(|it| *it > 100), "{tally:?}");
}

#[test]
fn a_number_short_or_over() {
    for list in 0..4 {
        let mut lengths = LENGTHS;
        lengths[list] -= 1;
        let mut slices = Slices::new(lengths, 3);
        let before = slices.clone();
        assert_eq!(slices.open(0, &[1]), packed([11, 3, 0]));
        assert_eq!(slices.open(2, &[1]), packed([1, 2, 0]));
        assert_eq!(slices.open(2, &[FAR + 1, 0, 0]), packed([2, 3, 0]));
        assert_eq!(slices, before);
        let model = Model {
            rules: 2,
            ..Model::default()
        };
        let mut slices = model.slices(lengths);
        assert_eq!(slices.place(&[0; 8]), packed(STRANGE));
        assert!(slices.is_strange());
        lengths[list] += 2;
        let mut slices = Slices::new(lengths, 3);
        assert_eq!(slices.open(2, &[FAR + 1, 0, 0]), packed([3, 2, 0]));
        assert_eq!(slices.open(2, &[]), 0);
        assert_eq!(slices.place(&[0; 8]), 0);
        assert!(!slices.is_strange());
        *slices.0[list].last_mut().unwrap() = 1;
        assert!(slices.is_strange());
    }
}

#[test]
fn a_report_needs_its_room_and_a_small_stack() {
    let small = thread::Builder::new().stack_size(1 << 20);
    small.spawn(report_by_room).unwrap().join().unwrap();
}

fn report_by_room() {
    let (model, slices) = full(300, 200);
    let exact = Report::rooms(300);
    let mut whole = Report::new(exact, 0xa5);
    let answer = slices.report(&mut whole);
    assert_eq!(answer & 0xffff, 0);
    let mut rows: Vec<[i64; 8]> = model.places.iter().flatten().copied().collect();
    rows.sort_by_key(|it| [it[1], it[2], it[3], it[0]]);
    assert_eq!(whole.components, rows.concat());
    assert!(whole.stack.iter().all(|it| *it == 0));
    for slice in 0..6 {
        let mut rooms = exact;
        rooms[slice] -= 1;
        let mut short = Report::new(rooms, 0xa5);
        let before = short.clone();
        assert_eq!(slices.report(&mut short), packed([2, 3, 0]), "{slice}");
        assert_eq!(short, before);
        rooms[slice] += 2;
        let mut over = Report::new(rooms, 0xa5);
        assert_eq!(slices.report(&mut over), answer);
        over.components.truncate(exact[0]);
        for (list, room) in over.numbers.iter_mut().zip(&exact[1..]) {
            list.truncate(*room);
        }
        over.stack.truncate(exact[5]);
        assert_eq!(over, whole);
    }
}
