//! The writer: how long an image takes, against copying its description four times.

use crate::clock::now;
use crate::work::RUNS;
use fillqhano::raw::write_image;
use fillqhano::{Description, Export, Import, InternalRelocation, Relocation, Segment, Tag};
use std::hint::black_box;
use std::time::Duration;

/// A row: a description, and what it has.
pub struct Written {
    pub name: &'static str,
    description: Vec<u8>,
}

impl Written {
    pub fn all() -> Vec<Written> {
        let row = |name, module: Description| Written { name, description: module.to_bytes() };
        let mut descending = module(0x30_0000, 10_000);
        descending.relocations.reverse();
        vec![
            row("writing 3 MiB with 10,000 relocations", module(0x30_0000, 10_000)),
            row("writing 30 MiB with 100,000 relocations", module(0x1E0_0000, 100_000)),
            row("writing 3 MiB, internal ones descending", descending),
        ]
    }

    /// The best times of writing and of four copies, which take turns.
    pub fn times(&self) -> (Duration, Duration) {
        let mut buffer = vec![0; self.description.len() + 0x1000];
        let mut best = (Duration::MAX, Duration::MAX);
        for _ in 0..RUNS {
            let start = now();
            let answer = black_box(write_image(&self.description, &mut buffer));
            let written = now();
            for _ in 0..4 {
                buffer[..self.description.len()].copy_from_slice(black_box(&self.description));
                black_box(&mut buffer);
            }
            assert_eq!(answer.0, 0, "{}", self.name);
            best = (best.0.min(written - start), best.1.min(now() - written));
        }
        best
    }
}

/// A module with so much code and so many relocations, two fifths of them of imports and the others internal, in ascending order.
fn module(code: usize, count: u32) -> Description {
    let relocation = |number| Relocation { tag: Tag::new(0, 0x100 + 4 * number), kind: 2, addend: 0 };
    let name = |number: u32| format!("_ZN2gf00Module9component{number:06}EPKcj").into_bytes();
    let imports = count / 5;
    Description {
        name: b"written".to_vec(),
        segments: vec![Segment::Code(vec![0xA5; code])],
        exports: (0..imports).map(|number| Export { name: name(number), tag: Tag::new(0, 4 * number) }).collect(),
        imports: (0..imports)
            .map(|number| Import { wanted: name(number), relocations: vec![relocation(2 * number), relocation(2 * number + 1)] })
            .collect(),
        relocations: (2 * imports..count)
            .map(|number| InternalRelocation { symbol: 0, relocation: relocation(number) })
            .collect(),
        ..Default::default()
    }
}
