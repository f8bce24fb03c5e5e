//! Two modules made from their parts: one exports `print`, the other imports it. Both are written, loaded, and the import is linked.
//! `cargo run --release --example written_modules`

use fillqhano::{Area, Description, Export, Import, Linker, LoadArguments, Relocation, Segment, Tag, Window};

const AT: u32 = 0x0010_0000;

/// The code of a module starts right after its header.
const CODE: usize = 0x138;

fn exporter() -> Description {
    Description {
        name: b"exporter".to_vec(),
        segments: vec![Segment::Code(vec![0; 0x40])],
        exports: vec![Export { name: b"print".to_vec(), tag: Tag::new(0, 0x10) }],
        ..Default::default()
    }
}

fn importer() -> Description {
    let call = Relocation { tag: Tag::new(0, 0x20), kind: 2, addend: 0 };
    Description {
        name: b"importer".to_vec(),
        segments: vec![Segment::Code(vec![0; 0x40]), Segment::Data(vec![1, 2, 3, 4]), Segment::Bss(0x100)],
        imports: vec![Import { wanted: b"print".to_vec(), relocations: vec![call] }],
        ..Default::default()
    }
}

fn main() -> Result<(), Box<dyn std::error::Error>> {
    let mut memory = vec![0; 0x4000];
    let images = [exporter().image()?, importer().image()?];
    for (page, image) in images.iter().enumerate() {
        memory[0x1000 * page..][..image.len()].copy_from_slice(image);
    }

    let mut linker = Linker::new();
    let mut window = Window { at: AT, bytes: &mut memory };
    let first = LoadArguments { base: AT, size: 0x1000, auto_link: true, ..Default::default() };
    linker.load(&mut window, first)?;
    let lent = |at, size| Area { at, size };
    let (data_segment, bss_segment) = (lent(AT + 0x2000, 4), lent(AT + 0x3000, 0x100));
    linker.load(&mut window, LoadArguments { base: AT + 0x1000, data_segment, bss_segment, ..first })?;

    let patched = 0x1000 + CODE + 0x20;
    let word = u32::from_le_bytes(window.bytes[patched..patched + 4].try_into()?);
    println!("the import holds {word:#x}, and `print` is at {:#x}", AT as usize + CODE + 0x10);
    assert_eq!(word as usize, AT as usize + CODE + 0x10);

    // the image as it was written gives its parts back; a loaded one has other bytes
    let parts = Description::of_image(&images[1]).expect("this is a written image");
    assert_eq!(parts, importer());
    println!("{} imports {} name", parts.name.escape_ascii(), parts.imports.len());

    // what would not be well laid everywhere is refused: here two imports that patch the same word
    let mut twice = importer();
    twice.imports.push(Import { wanted: b"read".to_vec(), ..twice.imports[0].clone() });
    println!("{}", twice.image().unwrap_err());
    Ok(())
}
