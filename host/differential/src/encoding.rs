//! The register's encoding, written from document 01 and, as to the order of named exports, request 5: what the buffers must
//! be, given what stands.

use crate::under_test::Buffers;
use sessions::{Module, State};

fn put(records: &mut Vec<u8>, word: usize) {
    records.extend((word as u32).to_le_bytes());
}

/// Whether the buffers are those of a register with this state, in which the named exports of each module ascend.
pub fn is_encoded(state: &State, buffers: &Buffers) -> bool {
    let mut expected = buffers.clone();
    encode(state, &mut expected);
    state.modules.iter().all(Module::ascends) && buffers.register() == expected.register()
}

/// Makes the register's buffers, whose lengths they keep, those of this state. The named exports stand in the state's order.
pub fn encode(state: &State, buffers: &mut Buffers) {
    let (mut records, mut names, mut missing) = (Vec::new(), Vec::new(), Vec::new());
    for module in &state.modules {
        for word in [module.base, module.size, module.auto_link as u32] {
            put(&mut records, word as usize);
        }
        put(&mut records, names.len());
        put(&mut records, module.name.len());
        names.extend(&module.name);
        for count in [module.segments.len(), module.exports.len(), module.indexed_exports.len()] {
            put(&mut records, count);
        }
        module.segments.iter().for_each(|&address| put(&mut records, address as usize));
        for (name, address) in &module.exports {
            put(&mut records, names.len());
            put(&mut records, name.len());
            put(&mut records, *address as usize);
            names.extend(name);
        }
        module.indexed_exports.iter().for_each(|&address| put(&mut records, address as usize));
    }
    for name in &state.missing {
        missing.extend((name.len() as u16).to_le_bytes());
        missing.extend(name);
        missing.resize(missing.len().next_multiple_of(514), 0);
    }
    let mut header = Vec::new();
    let (known, crs) = (state.crs.is_some() as usize, state.crs.unwrap_or(0) as usize);
    let used = 32 + records.len();
    for word in [state.modules.len(), known, crs, used, names.len(), state.missing.len(), 0, 0] {
        put(&mut header, word);
    }
    header.extend(records);
    for (lent, bytes) in [(&mut buffers.records, header), (&mut buffers.names, names), (&mut buffers.missing, missing)] {
        let length = lent.len();
        *lent = bytes;
        lent.resize(length, 0);
    }
}
