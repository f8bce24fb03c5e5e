//! The named exports of a record ascend by name, on both sides the same bytes; in any other order the register is none.
//! Without the Rust's sources only the linker's side is run.

use differential::compare::compare;
use differential::encoding::{encode, is_encoded};
use differential::under_test::{state, Buffers};
use fillqhano::raw::Answer;
use sessions::image::{tag, Image};
use sessions::{Call, Room, Session, Step};

const AT: u32 = 0x0010_0000;
const CODE: u32 = AT + 0x138;

type Exports = Vec<(Vec<u8>, u32)>;
type Change = fn(&mut Exports);

/// Names in no order, one of them twice, the last one's tag unusable.
fn session() -> Session {
    let names: [&[u8]; 7] = [b"b", b"ab", b"a", b"", b"\xFF", b"b", b"zz"];
    let exports = names.iter().zip([0, 4, 8, 12, 16, 20, 0x40]).map(|(name, offset)| (name.to_vec(), tag(0, offset)));
    let image = Image { name: b"m".to_vec(), sizes: [0x40, 0, 0, 0], exports: exports.collect(), ..Image::default() };
    let mut window = image.bytes();
    let size = window.len() as u32;
    window.resize(0x1000, 0);
    let load = Step { call: Call::Load, auto_link: 1, ..Step::initialize(AT, size) };
    Session { at: AT, window, room: Room::Bytes { records: 0x200, names: 0x40 }, steps: vec![load] }
}

fn loaded(session: &Session) -> Buffers {
    let mut buffers = Buffers::of(session);
    assert_eq!(buffers.call(&session.steps[0]), Answer::new(0, 0, None));
    buffers
}

fn exports(buffers: &Buffers) -> Exports {
    state(&buffers.linker().unwrap()).modules[0].exports.clone()
}

#[test]
fn a_records_exports_ascend() {
    let session = session();
    let buffers = loaded(&session);
    let ascending: [(&[u8], u32); 5] =
        [(b"", CODE + 12), (b"a", CODE + 8), (b"ab", CODE + 4), (b"b", CODE + 20), (b"\xFF", CODE + 16)];
    assert_eq!(exports(&buffers), ascending.map(|(name, address)| (name.to_vec(), address)));
    assert_eq!(buffers.names[..7], *b"maabb\xFF\0");
    assert!(is_encoded(&state(&buffers.linker().unwrap()), &buffers));
    assert!(compare(&session).is_none_or(|compared| compared.mismatch.is_none() && compared.tally.compared() == 1));
}

/// Wrong orders of the same exports, and one of them twice.
const WRONG: [(&str, Change); 6] = [
    ("two exchanged", |exports| exports.swap(1, 2)),
    ("the last two exchanged", |exports| exports.swap(3, 4)),
    ("the shorter first", |exports| exports.sort_by_key(|export| (export.0.len(), export.0.clone()))),
    ("bytes as signed numbers", |exports| {
        exports.sort_by_key(|export| export.0.iter().map(|&byte| byte as i8).collect::<Vec<_>>())
    }),
    ("the empty name last", |exports| exports.rotate_left(1)),
    ("one twice", |exports| exports.insert(1, exports[1].clone())),
];

#[test]
fn another_order_is_no_register() {
    let session = session();
    let good = loaded(&session);
    for (what, change) in WRONG {
        let mut wrong = state(&good.linker().unwrap());
        change(&mut wrong.modules[0].exports);
        let mut buffers = good.clone();
        encode(&wrong, &mut buffers);
        assert!(!is_encoded(&wrong, &buffers), "{what}");
        let before = buffers.clone();
        for step in [Step::initialize(AT, 0x1000), session.steps[0], Step::unload(AT), Step::unload(1)] {
            assert_eq!(buffers.call(&step), Answer::new(4, 0, None), "{what}");
            assert!(buffers == before, "{what}");
        }
    }
}
