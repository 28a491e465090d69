//! splitmix64, and choices made with it.

pub struct Random {
    state: u64,
    /// For links of the gABI profile: hidden symbols are to be frequent, and strong references after
    /// weak ones.
    pub(crate) gabi: bool,
    /// For links that the Rust isn't asked: some symbols are to be common, some have a size.
    pub(crate) commons: bool,
}

impl Random {
    pub fn new(seed: u64) -> Self {
        Random { state: seed, gabi: false, commons: false }
    }

    pub(crate) fn gabi(seed: u64) -> Self {
        Random { state: seed, gabi: true, commons: true }
    }

    pub(crate) fn commons(seed: u64) -> Self {
        Random { state: seed, gabi: false, commons: true }
    }

    /// The visibility of a symbol that is to be accepted: default, or often hidden.
    pub(crate) fn hidden(&mut self) -> u64 {
        if self.gabi && self.chance(40) { 2 } else { 0 }
    }

    /// One of these visibilities, or often hidden.
    pub(crate) fn visibility(&mut self, usual: &[u64]) -> u64 {
        if self.gabi && self.chance(30) { 2 } else { self.pick(usual) }
    }

    pub(crate) fn next(&mut self) -> u64 {
        self.state = self.state.wrapping_add(0x9e37_79b9_7f4a_7c15);
        let mut z = self.state;
        z = (z ^ (z >> 30)).wrapping_mul(0xbf58_476d_1ce4_e5b9);
        z = (z ^ (z >> 27)).wrapping_mul(0x94d0_49bb_1331_11eb);
        z ^ (z >> 31)
    }

    pub fn below(&mut self, limit: u64) -> u64 {
        self.next() % limit
    }

    pub fn between(&mut self, low: u64, high: u64) -> u64 {
        low + self.below(high - low + 1)
    }

    /// Yes in so many of a hundred cases.
    pub fn chance(&mut self, percent: u64) -> bool {
        self.below(100) < percent
    }

    pub fn pick<T: Clone>(&mut self, from: &[T]) -> T {
        from[self.below(from.len() as u64) as usize].clone()
    }

    pub fn shuffle<T>(&mut self, items: &mut [T]) {
        for last in (1..items.len()).rev() {
            items.swap(last, self.below(last as u64 + 1) as usize);
        }
    }

    /// Symbol values, at both sides of 2^63 too.
    pub fn value(&mut self) -> u64 {
        let any = self.next();
        self.pick(&[
            0,
            0,
            0,
            0,
            1,
            8,
            16,
            4096,
            (1 << 63) - 1,
            1 << 63,
            (1 << 63) + 1,
            u64::MAX,
            any,
        ])
    }
}
