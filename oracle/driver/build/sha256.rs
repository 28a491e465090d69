//! SHA-256 (FIPS 180-4), so that the check of the sources needs no crate and no tool.

/// The first 32 bits of the fractional parts of the cube roots (square roots for the start) of the
/// first primes, computed instead of written down.
fn roots(count: usize, cube: bool) -> Vec<u32> {
    let primes = (2u128..).filter(|n| (2..*n).take_while(|d| d * d <= *n).all(|d| n % d != 0));
    primes
        .take(count)
        .map(|prime| {
            // The largest r with r^k <= prime * 2^(32k): the root with 32 bits after the point.
            let (mut low, mut high) = (0u128, 1 << 36);
            while low + 1 < high {
                let middle = (low + high) / 2;
                let fits = if cube {
                    middle * middle * middle <= prime << 96
                } else {
                    middle * middle <= prime << 64
                };
                if fits { low = middle } else { high = middle }
            }
            low as u32
        })
        .collect()
}

pub fn hex(bytes: &[u8]) -> String {
    let constants = roots(64, true);
    let mut state = roots(8, false);

    let mut padded = bytes.to_vec();
    padded.push(0x80);
    while padded.len() % 64 != 56 {
        padded.push(0);
    }
    padded.extend((bytes.len() as u64 * 8).to_be_bytes());

    for block in padded.chunks(64) {
        let mut w: Vec<u32> =
            block.chunks(4).map(|b| u32::from_be_bytes(b.try_into().unwrap())).collect();
        for t in 16..64 {
            let (x, y) = (w[t - 15], w[t - 2]);
            let s0 = x.rotate_right(7) ^ x.rotate_right(18) ^ (x >> 3);
            let s1 = y.rotate_right(17) ^ y.rotate_right(19) ^ (y >> 10);
            w.push(w[t - 16].wrapping_add(s0).wrapping_add(w[t - 7]).wrapping_add(s1));
        }
        let mut v = state.clone();
        for t in 0..64 {
            let (a, e) = (v[0], v[4]);
            let s1 = e.rotate_right(6) ^ e.rotate_right(11) ^ e.rotate_right(25);
            let choice = (e & v[5]) ^ (!e & v[6]);
            let one = [s1, choice, constants[t], w[t]].iter().fold(v[7], |s, x| s.wrapping_add(*x));
            let s0 = a.rotate_right(2) ^ a.rotate_right(13) ^ a.rotate_right(22);
            let majority = (a & v[1]) ^ (a & v[2]) ^ (v[1] & v[2]);
            let two = s0.wrapping_add(majority);
            v.rotate_right(1);
            v[4] = v[4].wrapping_add(one);
            v[0] = one.wrapping_add(two);
        }
        for (sum, x) in state.iter_mut().zip(v) {
            *sum = sum.wrapping_add(x);
        }
    }
    state.iter().map(|word| format!("{word:08x}")).collect()
}
