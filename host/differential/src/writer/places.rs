//! Places for an image of P bytes with D bytes lent for data and B for bss. They are chosen on a circle: after the image come, in some order,
//! data, bss and the two addresses 2^32 - 1 and 0 that no area may have, with what is free between them.

use sessions::Random;

/// Where the image starts, and the lent areas by start and size.
#[derive(Debug, Clone, Copy)]
pub struct Place {
    pub base: u64,
    pub data: (u64, u64),
    pub bss: (u64, u64),
}

const ADDRESSES: u64 = 1 << 32;

/// The three sizes: the image's, and the least that data and bss may have.
#[derive(Debug, Clone, Copy)]
pub struct Sizes {
    pub image: u64,
    pub data: u64,
    pub bss: u64,
}

impl Sizes {
    /// The addresses that none of them fills, if there are the two that none may have.
    pub fn free(self) -> Option<u64> {
        ADDRESSES.checked_sub(self.image + self.data + self.bss).filter(|&free| free >= 2)
    }

    /// The place with these gaps before, between and after the lent areas; the two addresses are `into` bytes into gap number `hole`.
    fn place(self, bss_first: bool, gaps: [u64; 3], hole: usize, into: u64) -> Option<Place> {
        (gaps[hole] >= into + 2).then_some(())?;
        let (first, second) = if bss_first { (self.bss, self.data) } else { (self.data, self.bss) };
        let starts = [gaps[0], gaps[0] + first + gaps[1]];
        let holes = [0, starts[0] + first, starts[1] + second];
        let zero = holes[hole] + into;
        // position 0 is right after the image; position `zero` is the address 2^32 - 1
        let address = |position: u64| (position + ADDRESSES - 1 - zero) % ADDRESSES;
        let lent = |position: u64, size: u64| if size == 0 { (1, 0) } else { (address(position), size) };
        let (data, bss) = if bss_first { (starts[1], starts[0]) } else { (starts[0], starts[1]) };
        let base = ADDRESSES - 1 - zero - self.image;
        Some(Place { base, data: lent(data, self.data), bss: lent(bss, self.bss) })
    }

    /// Forty places with the least areas: both orders, each gap in turn all of what is free, with the two addresses at its start or its
    /// end or in another gap, and others at random.
    pub fn places(self, random: &mut Random) -> Vec<Place> {
        let Some(free) = self.free() else { return Vec::new() };
        let mut places = Vec::new();
        for bss_first in [false, true] {
            for wide in 0..3 {
                let all: [u64; 3] = std::array::from_fn(|gap| if gap == wide { free } else { 0 });
                places.extend(self.place(bss_first, all, wide, 0));
                places.extend(self.place(bss_first, all, wide, free - 2));
                for hole in (0..3).filter(|&hole| hole != wide) {
                    let most = std::array::from_fn(|gap| if gap == wide { free - 2 } else { 2 * (gap == hole) as u64 });
                    places.extend(self.place(bss_first, most, hole, 0));
                }
            }
        }
        while places.len() < 40 {
            places.extend(self.random_place(random, free));
        }
        places
    }

    fn random_place(self, random: &mut Random, free: u64) -> Option<Place> {
        let mut below = |end: u64| {
            let long = ((random.word() as u64) << 32) | random.word() as u64;
            ((long as u128 * end as u128) >> 64) as u64
        };
        let first = below(free + 1);
        let second = below(free + 1 - first);
        let gaps = [first, second, free - first - second];
        let hole = below(3) as usize;
        let into = below(gaps[hole].max(1));
        self.place(below(2) == 1, gaps, hole, into)
    }

    /// Places in which data or bss starts so many bytes after the image's end, if there are any.
    pub fn starting(self, bss: bool, start: u64) -> Vec<Place> {
        let Some(free) = self.free() else { return Vec::new() };
        let other = if bss { self.data } else { self.bss };
        let mut places = Vec::new();
        for hole in 0..3 {
            // it is first, after the gap of `start` bytes
            if let Some(rest) = free.checked_sub(start) {
                let gaps = [start, if hole == 1 { rest } else { 0 }, if hole == 1 { 0 } else { rest }];
                places.extend(self.place(bss, gaps, hole, 0));
            }
            // it is second, after the other and the gaps before it
            if let Some(rest) = start.checked_sub(other).and_then(|before| free.checked_sub(before)) {
                let before = start - other;
                let gaps = if hole == 1 { [0, before, rest] } else { [before, 0, rest] };
                places.extend(self.place(!bss, gaps, hole, 0));
            }
        }
        places
    }
}
