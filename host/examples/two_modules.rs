//! A static module and a module that imports from it: loaded, looked at, unloaded.
//! `cargo run --release --example two_modules`

use fillqhano::{Error, Linker, LoadArguments, Window};
use sessions::image::{tag, Image, Relocation};

const AT: u32 = 0x0010_0000;

/// The static module exports `print`; the module imports it, and `read`, which nothing exports.
fn images() -> (Image, Image) {
    let handler = tag(0, 4);
    let provider = Image {
        name: b"provider".to_vec(),
        static_base: Some(AT),
        handler,
        sizes: [0x40, 0, 0, 0],
        exports: vec![(b"print".to_vec(), tag(0, 0x10))],
        ..Image::default()
    };
    let call = |offset| vec![Relocation { tag: tag(0, offset), kind: 2, addend: 0 }];
    let imports = vec![(b"print".to_vec(), call(0x20)), (b"read".to_vec(), call(0x24))];
    let user = Image { name: b"user".to_vec(), handler, sizes: [0x40, 0, 0, 0], imports, ..Image::default() };
    (provider, user)
}

fn main() -> Result<(), Error> {
    // in an emulator this is the guest's memory, and the title has read the modules into it
    let mut memory = vec![0; 0x3000];
    let (provider, user) = images();
    let (provider, user) = (provider.bytes(), user.bytes());
    memory[..provider.len()].copy_from_slice(&provider);
    memory[0x1000..0x1000 + user.len()].copy_from_slice(&user);

    let mut linker = Linker::new();
    let mut window = Window { at: AT, bytes: &mut memory };
    linker.initialize(&mut window, AT, 0x1000)?;
    let user = LoadArguments { base: AT + 0x1000, size: 0x1000, auto_link: true, fix_level: 1, ..Default::default() };
    let fixed = linker.load(&mut window, user)?;
    println!("{fixed:#x} bytes of the module are left");
    for module in linker.modules() {
        println!("{module:?}, {} exports", module.exports().len());
    }
    for name in linker.missing() {
        println!("nothing exports {}", name.escape_ascii());
    }
    let word = 0x1000 + 0x138 + 0x20;
    println!("the import holds {:02x?}", &window.bytes[word..word + 4]);
    // a module with bad offsets may make the linker read or write outside the window; these two do not
    assert_eq!(linker.touch(), None);

    // the guest's memory and this are all that a saved state needs
    let saved = linker.to_bytes();
    let mut linker = Linker::from_bytes(&saved).expect("these bytes are a saved state");
    println!("{} bytes of saved state", saved.len());
    assert!(linker.unload(&mut window, user.base)?);
    Ok(())
}
