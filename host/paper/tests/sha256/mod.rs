//! SHA-256 (FIPS 180-4), for the files that must stay byte for byte.

const fn is_prime(number: u64) -> bool {
    let mut divisor = 2;
    while divisor * divisor <= number {
        if number.is_multiple_of(divisor) {
            return false;
        }
        divisor += 1;
    }
    true
}

/// The first 32 bits after the point of a root of each of the first primes:
/// the largest r with r^degree <= prime * 2^(32 * degree), low 32 bits.
const fn roots<const N: usize>(degree: u32) -> [u32; N] {
    let mut out = [0; N];
    let (mut found, mut candidate) = (0, 2);
    while found < N {
        if is_prime(candidate) {
            out[found] = root(candidate as u128, degree) as u32;
            found += 1;
        }
        candidate += 1;
    }
    out
}

const fn root(prime: u128, degree: u32) -> u128 {
    let target = prime << (32 * degree);
    let (mut low, mut high) = (0_u128, 1 << 38);
    while high - low > 1 {
        let middle = u128::midpoint(low, high);
        if middle.pow(degree) <= target {
            low = middle;
        } else {
            high = middle;
        }
    }
    low
}

const START: [u32; 8] = roots(2);
const ROUND: [u32; 64] = roots(3);

fn padded(bytes: &[u8]) -> Vec<u8> {
    let mut padded = bytes.to_vec();
    padded.push(0x80);
    while padded.len() % 64 != 56 {
        padded.push(0);
    }
    padded.extend((bytes.len() as u64 * 8).to_be_bytes());
    padded
}

fn schedule(block: &[u8]) -> [u32; 64] {
    let mut words = [0_u32; 64];
    for (word, bytes) in words.iter_mut().zip(block.chunks_exact(4)) {
        *word = bytes
            .iter()
            .fold(0, |word, &byte| word << 8 | u32::from(byte));
    }
    for place in 16..64 {
        let (far, near) = (words[place - 15], words[place - 2]);
        let low = far.rotate_right(7) ^ far.rotate_right(18) ^ (far >> 3);
        let high = near.rotate_right(17) ^ near.rotate_right(19) ^ (near >> 10);
        words[place] = words[place - 16]
            .wrapping_add(low)
            .wrapping_add(words[place - 7])
            .wrapping_add(high);
    }
    words
}

fn compress(state: [u32; 8], block: &[u8]) -> [u32; 8] {
    let [mut a, mut b, mut c, mut d, mut e, mut f, mut g, mut h] = state;
    for (word, constant) in schedule(block).into_iter().zip(ROUND) {
        let high = e.rotate_right(6) ^ e.rotate_right(11) ^ e.rotate_right(25);
        let choice = (e & f) ^ (!e & g);
        let first = h
            .wrapping_add(high)
            .wrapping_add(choice)
            .wrapping_add(constant)
            .wrapping_add(word);
        let low = a.rotate_right(2) ^ a.rotate_right(13) ^ a.rotate_right(22);
        let majority = (a & b) ^ (a & c) ^ (b & c);
        let second = low.wrapping_add(majority);
        (h, g, f, e) = (g, f, e, d.wrapping_add(first));
        (d, c, b, a) = (c, b, a, first.wrapping_add(second));
    }
    let after = [a, b, c, d, e, f, g, h];
    [0, 1, 2, 3, 4, 5, 6, 7].map(|place: usize| state[place].wrapping_add(after[place]))
}

/// The hash in hexadecimal.
pub fn hex(bytes: &[u8]) -> String {
    let state = padded(bytes).chunks_exact(64).fold(START, compress);
    state.iter().map(|word| format!("{word:08x}")).collect()
}
