//! The ports of single blocks and faces of single steps against the unchanged Rust, by
//! rules 3 against the restatement; codes out of their range are refused, and every
//! length of the slice; the slopes of steps against the words of the request.

use checks::{Guarded, UNKNOWN_RULES};
use probe::blocks::{Block, block_ports};
use probe::ports::step_between;
use scenes::limits::{FAR, LAST_FACE, LAST_KIND, LAST_RULES, UNREAD_BLANKS};

type Cell = [i64; 3];

/// Numbers of rules, known and not.
const RULES: [i64; 8] = [1, 2, LAST_RULES, i64::MIN, -1, 0, LAST_RULES + 1, i64::MAX];

/// Numbers that the slice of a block's ports must have.
const PLACES: usize = 7 * 3;

/// 11, 2 and 3 as they are packed: 3 at the first item of the components.
const UNKNOWN: u64 = UNKNOWN_RULES as u64 + 256 * 3;
const SHORT: u64 = 2 + 256 * 3;
const OUT_OF_RANGE: u64 = 3;

/// The Rust's ports of a block, by rules 3 the restatement's.
fn wanted_ports(rules: i64, codes: Block) -> Vec<[i64; 3]> {
    let [kind, facing, support, conducts] = codes;
    let component = [0, 0, 0, 0, kind, facing, support, conducts];
    if rules < UNREAD_BLANKS {
        oracle::ports_of(&component).concat()
    } else {
        paper::ports_of(rules, &component).concat()
    }
}

/// The answer and the places behind the slice's front: the ports, and zeros past the
/// last; a refusal leaves all as it was.
fn wanted(rules: i64, block: Block, length: usize) -> (u64, Vec<u64>) {
    let lasts = [LAST_KIND, LAST_FACE, LAST_FACE, 1];
    let mut each = block.iter().zip(lasts);
    if !(1..=LAST_RULES).contains(&rules) {
        (UNKNOWN, Vec::new())
    } else if length < PLACES {
        (SHORT, Vec::new())
    } else if each.any(|(code, last)| !(0..=last).contains(code)) {
        (OUT_OF_RANGE, Vec::new())
    } else {
        let ports = wanted_ports(rules, block);
        let count = ports.len() as u64;
        let numbers = ports.into_iter().flatten().map(i64::unsigned_abs);
        let mut numbers: Vec<u64> = numbers.collect();
        numbers.resize(PLACES, 0);
        (65_536 * count, numbers)
    }
}

fn hold_ports(rules: i64, block: Block, length: usize) -> u64 {
    let mut slice = Guarded::new(length, length);
    let given = block_ports(rules, block, slice.lent());
    let (answer, numbers) = wanted(rules, block, length);
    assert_eq!(given, answer, "{block:?} by {rules}, {length} places");
    assert!(
        slice.holds(&numbers),
        "{block:?} by {rules}, {length} places"
    );
    answer
}

#[test]
fn every_block_has_the_ports_of_the_rust() {
    let (mut count, mut accepted) = (0, 0);
    for kind in 0..=LAST_KIND {
        for facing in 0..=LAST_FACE {
            for support in 0..=LAST_FACE {
                for conducts in 0..=1 {
                    let codes = [kind, facing, support, conducts];
                    for rules in RULES {
                        for length in [PLACES, PLACES + 1, PLACES - 1, 0] {
                            let answer = hold_ports(rules, codes, length);
                            accepted += u64::from(answer.is_multiple_of(65_536));
                            count += 1;
                        }
                    }
                }
            }
        }
    }
    println!("{count} calls for the ports of a block, {accepted} accepted");
    assert_eq!(count, 4 * 1_274 * RULES.len());
    assert_eq!(accepted, 2 * 1_274 * 3);
}

/// Codes with those beyond their range, also such as a narrower number, or one
/// without a sign, would take for one inside.
fn codes(last: i64) -> Vec<i64> {
    let beyond = [last + 1, last + 2, 255, 256, 257, 258, 259, 265, 65_537];
    let far = [1 << 32, (1 << 32) + 1, i64::MAX - 1, i64::MAX];
    let below = [-1, -2, -256, i64::MIN, i64::MIN + 1];
    let inside = 0..=last;
    inside.chain(beyond).chain(far).chain(below).collect()
}

#[test]
fn codes_out_of_their_range_are_refused() {
    let (mut count, mut refused) = (0_u64, 0_u64);
    for kind in codes(LAST_KIND) {
        for facing in codes(LAST_FACE) {
            for support in codes(LAST_FACE) {
                for conducts in codes(1) {
                    for rules in [1, LAST_RULES] {
                        let block = [kind, facing, support, conducts];
                        refused += u64::from(hold_ports(rules, block, PLACES) == OUT_OF_RANGE);
                        count += 1;
                    }
                }
            }
        }
    }
    println!("{count} blocks of any codes, {refused} refused");
    assert_eq!(count - refused, 2 * 1_274);
}

/// The Rust's face of a step, read off the port that a wire takes: the six
/// faces in order. The paper gives no face to a cell outside the range.
fn wanted_face(from: Cell, to: Cell) -> u64 {
    let outside = |cell: Cell| cell.into_iter().any(|axis| !(-FAR..=FAR).contains(&axis));
    if outside(from) || outside(to) {
        return 0;
    }
    let wire = |id, [x, y, z]: Cell| [id, x, y, z, 0, 0, 0, 0];
    let kept = oracle::ports(&[wire(1, from), wire(2, to)].concat(), &[1, 2, 0]);
    kept.first().map_or(0, |row| row[1].unsigned_abs() + 1)
}

/// A step with a face rises or falls by one or not at all; one without is
/// level.
fn wanted_slope(face: u64, from: Cell, to: Cell) -> u64 {
    match (face, i128::from(to[1]) - i128::from(from[1])) {
        (1.., 1) => 1,
        (1.., -1) => 2,
        _ => 0,
    }
}

fn hold_step(from: Cell, to: Cell) -> [u64; 2] {
    let step = step_between(from, to);
    let face = wanted_face(from, to);
    let slope = wanted_slope(face, from, to);
    assert_eq!(step, [face, slope], "{from:?} to {to:?}");
    step
}

/// All cells whose axes are among these.
fn cells(axes: &[i64]) -> Vec<Cell> {
    let pairs = axes.iter().flat_map(|x| axes.iter().map(move |y| [*x, *y]));
    pairs
        .flat_map(|[x, y]| axes.iter().map(move |z| [x, y, *z]))
        .collect()
}

#[test]
fn every_step_has_the_face_of_the_rust() {
    let (mut by_face, mut by_slope) = ([0_u64; 7], [0_u64; 3]);
    for from in cells(&[-FAR, 1 - FAR, 0, FAR - 1, FAR]) {
        for step in cells(&[-2, -1, 0, 1, 2]) {
            let to = [0, 1, 2].map(|axis| from[axis] + step[axis]);
            for [face, slope] in [hold_step(from, to), hold_step(to, from)] {
                by_face[usize::try_from(face).unwrap_or(0)] += 1;
                by_slope[usize::try_from(slope).unwrap_or(0)] += 1;
            }
        }
    }
    println!("steps by face, none first: {by_face:?}; by slope: {by_slope:?}");
    assert!(by_face.iter().chain(&by_slope).all(|count| *count > 0));
    assert_eq!(by_slope[1], by_slope[2]);
}

/// Differences that a 64-bit number cannot hold, and cells outside the range.
#[test]
fn steps_of_any_numbers_have_a_face_or_none() {
    let axes = [
        i64::MIN,
        i64::MIN + 1,
        -FAR - 1,
        -FAR,
        -1,
        0,
        FAR,
        FAR + 1,
        i64::MAX - 1,
        i64::MAX,
    ];
    let all = cells(&axes);
    let mut count = 0;
    for &from in &all {
        for &to in &all {
            hold_step(from, to);
            count += 1;
        }
    }
    println!("{count} steps between any numbers");
}
