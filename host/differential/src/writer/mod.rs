//! The writer by running: random descriptions, most of them nearly right, against the literal definition of document 02 in many places;
//! what it takes is read back, and so are images that nobody wrote. That written images load is seen by the pairs of demand 3, whose modules
//! are written ones.

mod descriptions;
mod laid;
mod places;

use fillqhano::raw;
use laid::File;
use places::{Place, Sizes};
use sessions::Random;

/// What was seen.
#[derive(Debug, Default)]
pub struct Written {
    pub descriptions: u64,
    /// Descriptions that were taken, and those of them with a word past the image's end.
    pub accepted: u64,
    pub far: u64,
    /// Those refused for their form, for want of a place, and in some place only.
    pub not_described: u64,
    pub no_place: u64,
    pub not_laid: u64,
    pub places: u64,
}

const FILL: u8 = 0xAA;

/// Tries one description; gives what does not hold.
pub fn try_one(seed: u64, number: u64, written: &mut Written) -> Result<(), String> {
    let mut random = Random::new(seed, 200, number);
    let description = descriptions::any(&mut random);
    let expected = judge(&mut random, &description, written);
    let wrong = |what: &str| Err(format!("description {number} of seed {seed}: {what}"));
    let size = description.len().next_multiple_of(0x1000);
    let mut buffer = vec![FILL; size + 8];
    let (answer, value) = raw::write_image(&description, &mut buffer);
    written.descriptions += 1;
    match (answer, expected) {
        (6, false) if value != 0 || buffer.iter().any(|&byte| byte != FILL) => return wrong("6 with a change"),
        (6, false) => return Ok(()),
        (0, true) => {}
        (0, false) => return wrong("taken, and not well laid in some place"),
        (6, true) => return wrong("refused, and well laid in all places tried"),
        _ => return wrong(&format!("number {answer}")),
    }
    written.accepted += 1;
    let image = image_of(&description);
    if value as usize != size || buffer[..size] != image[..] || buffer[size..].iter().any(|&byte| byte != FILL) {
        return wrong("another image");
    }
    let mut short = vec![FILL; size - 1];
    if raw::write_image(&description, &mut short) != (7, 0) || short.iter().any(|&byte| byte != FILL) {
        return wrong("a buffer too short is not 7 without a change");
    }
    let mut back = vec![FILL; description.len() + 8];
    if raw::read_image(&image, &mut back) != (0, description.len() as u32) || back[..description.len()] != description[..] {
        return wrong("not read back");
    }
    Ok(())
}

/// Reads any bytes back, into a buffer of any length; gives what does not hold.
pub fn try_reading(seed: u64, number: u64) -> Result<(), String> {
    let mut random = Random::new(seed, 201, number);
    let any = random.below(0x400) as usize;
    let mut image: Vec<u8> = (0..random.pick(&[0, 0x137, 0x138, 0x139, 0x200, any])).map(|_| random.word() as u8).collect();
    let length = image.len() as u32;
    let word = random.pick(&[0, 0x80, 0x82, 0x84, 0x91, 0x93, 0x94, 0x138, length, length + 1, u32::MAX]);
    if let Some(place) = image.get_mut(0x130..0x134) {
        place.copy_from_slice(&word.to_le_bytes());
    }
    let size = word as usize;
    let fits = image.len() >= 0x138 && size <= image.len();
    let near = if fits { size } else { any };
    let buffer = vec![FILL; random.pick(&[0, near.saturating_sub(1), near, near + 1, near + 0x100])];
    let mut expected = (6, 0, buffer.clone());
    if fits {
        expected.0 = 7;
    }
    if fits && buffer.len() >= size {
        let described = |(at, &byte): (usize, &u8)| if matches!(at, 0x80..0x84 | 0x90..0x94) { 0 } else { byte };
        let back: Vec<u8> = image[..size].iter().enumerate().map(described).collect();
        expected.2[..size].copy_from_slice(&back);
        (expected.0, expected.1) = (0, word);
    }
    let mut after = buffer;
    let (answer, value) = raw::read_image(&image, &mut after);
    if (answer, value, after) != expected {
        return Err(format!("image {number} of seed {seed}: read otherwise, {answer} {value:#x}"));
    }
    Ok(())
}

/// The image by the text: the description with magic and length, and zeros up to a multiple of 4,096.
fn image_of(description: &[u8]) -> Vec<u8> {
    let mut image = description.to_vec();
    image.resize(description.len().next_multiple_of(0x1000), 0);
    let size = image.len() as u32;
    image[0x80..0x84].copy_from_slice(b"CRO0");
    image[0x90..0x94].copy_from_slice(&size.to_le_bytes());
    image
}

/// Whether the text takes it: packed and named, with a place, and well laid in each of many.
fn judge(random: &mut Random, description: &[u8], written: &mut Written) -> bool {
    if !File(description).is_described() {
        written.not_described += 1;
        return false;
    }
    let image = image_of(description);
    let file = File(&image);
    let sizes = Sizes { image: image.len() as u64, data: file.greatest(2), bss: file.greatest(3) };
    let mut places = sizes.places(random);
    let Some(&first) = places.first() else {
        written.no_place += 1;
        return false;
    };
    let far = file.far_words(&first);
    places.extend(meeting_places(file, sizes, &far));
    written.places += places.len() as u64;
    let laid = file.laid_alone().is_some_and(|touched| places.iter().all(|place| file.laid_in_place(&touched, place)));
    written.not_laid += !laid as u64;
    written.far += (laid && !far.is_empty()) as u64;
    laid
}

/// Places in which a word past the image's end could meet one of data or bss: where an area starts so that they come close.
fn meeting_places(file: File, sizes: Sizes, far: &[u64]) -> Vec<Place> {
    let mut places = Vec::new();
    for (bss, offset) in file.lent_words() {
        for past in far {
            for start in (past + 3).saturating_sub(offset + 6)..=(past + 3).saturating_sub(offset) {
                places.extend(sizes.starting(bss, start));
            }
        }
    }
    places
}
