//! Two titles on one window: each loads its module by a command buffer, and unloads it. The host passes the buffers on to the desk, and wakes
//! whom a turn has served. `cargo run --release --example service_desk`

use fillqhano::{Desk, Error, Linker, Window};
use sessions::image::{tag, Image, Relocation};

const AT: u32 = 0x0010_0000;
const MODULES: [u32; 2] = [AT, AT + 0x1000];
const BUFFERS: [u32; 2] = [AT + 0x2000, AT + 0x2100];

/// The titles, by numbers of the host's own.
const TITLES: [u32; 2] = [7, 9];

/// The first title's module exports `print`, and the second's imports it.
fn images() -> [Image; 2] {
    let empty = Image { handler: tag(0, 4), sizes: [0x40, 0, 0, 0], ..Image::default() };
    let print = b"print".to_vec();
    let call = vec![Relocation { tag: tag(0, 0x20), kind: 2, addend: 0 }];
    let provider = Image { name: b"provider".to_vec(), exports: vec![(print.clone(), tag(0, 0x10))], ..empty.clone() };
    let user = Image { name: b"user".to_vec(), imports: vec![(print, call)], ..empty };
    [provider, user]
}

/// What a title writes before it asks for `ldr:ro`: LoadCRO with auto-link and fix level 1, and UnloadCRO.
fn load(base: u32) -> Vec<u32> {
    vec![0x0004_02C2, base, 0, 0x1000, 0, 0, 0, 0, 0, 1, 1, 0]
}

fn unload(base: u32) -> Vec<u32> {
    vec![0x0005_0082, base, 0]
}

fn write(memory: &mut [u8], address: u32, words: &[u32]) {
    let bytes = words.iter().flat_map(|word| word.to_le_bytes());
    memory[(address - AT) as usize..].iter_mut().zip(bytes).for_each(|(at, byte)| *at = byte);
}

fn word(memory: &[u8], address: u32) -> u32 {
    u32::from_le_bytes(memory[(address - AT) as usize..][..4].try_into().unwrap())
}

/// Serves all that waits. In an emulator a turn is made whenever the host likes, and the title that it served goes on.
fn serve(desk: &mut Desk, linker: &mut Linker, memory: &mut [u8]) -> Result<(), Error> {
    while let Some(served) = desk.turn(linker, &mut Window { at: AT, bytes: memory })? {
        let (header, result) = (word(memory, served.buffer), word(memory, served.buffer + 4));
        println!("title {}: {:x?}, and its buffer holds {header:#010x}, result {result:#x}", served.caller, served.result);
    }
    Ok(())
}

fn main() -> Result<(), Error> {
    // the guest's memory: each title has read its module into it, and has a command buffer
    let mut memory = vec![0; 0x3000];
    for (image, base) in images().iter().zip(MODULES) {
        let place = (base - AT) as usize;
        let bytes = image.bytes();
        memory[place..place + bytes.len()].copy_from_slice(&bytes);
    }
    let (mut desk, mut linker) = (Desk::new(), Linker::new());
    for command in [load, unload] {
        for ((title, buffer), base) in TITLES.into_iter().zip(BUFFERS).zip(MODULES) {
            write(&mut memory, buffer, &command(base));
            desk.send(title, buffer)?;
        }
        println!("{} command buffers wait", desk.waiting());
        serve(&mut desk, &mut linker, &mut memory)?;
        println!("{:?}", linker.modules().collect::<Vec<_>>());
        println!("the import holds {:#x}", word(&memory, MODULES[1] + 0x138 + 0x20));
    }
    assert!(linker.is_empty());
    // a module that is to run elsewhere is refused, and the title is told so
    let elsewhere = [0x0004_02C2, MODULES[0], 0x0080_0000, 0x1000];
    write(&mut memory, BUFFERS[0], &elsewhere);
    desk.send(TITLES[0], BUFFERS[0])?;
    serve(&mut desk, &mut linker, &mut memory)?;
    // the desk is saved beside the linker
    println!("{} bytes of saved state", desk.to_bytes().len() + linker.to_bytes().len());
    Ok(())
}
