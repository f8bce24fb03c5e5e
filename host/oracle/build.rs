//! Finds the Rust's sources, in the folder that ZAKURO_SRC names or beside the repository, and has them compiled
//! from where they are. A folder that ZAKURO_SRC names must have them.
use std::path::{Path, PathBuf};

/// The linker, the command buffers, and what stands above the linker.
const SOURCES: [&str; 3] = ["cro/mod.rs", "kernel/ipc.rs", "services/ldr_ro.rs"];

fn main() {
    println!("cargo:rerun-if-env-changed=ZAKURO_SRC");
    println!("cargo:rustc-check-cfg=cfg(sources)");
    let beside = Path::new(env!("CARGO_MANIFEST_DIR")).join("../../../shared/docs/src");
    let named = std::env::var_os("ZAKURO_SRC").map(PathBuf::from);
    let folder = named.as_ref().unwrap_or(&beside).join("crates/zakuro-core/src");
    let sources = SOURCES.map(|source| folder.join(source));
    for source in &sources {
        println!("cargo:rerun-if-changed={}", source.display());
    }
    if let Some(absent) = sources.iter().find(|source| !source.exists()) {
        if named.is_some() {
            eprintln!("ZAKURO_SRC names a folder without the Rust's sources: {} is not there", absent.display());
            std::process::exit(1);
        }
        return;
    }
    let [cro, ipc, ldr_ro] = sources.map(|source| source.canonicalize().unwrap());
    let modules = [
        format!("#[path = {cro:?}]\npub mod cro;\n"),
        format!("pub mod kernel {{\n#[path = {ipc:?}]\npub mod ipc;\n}}\n"),
        format!("pub mod services {{\n#[path = {ldr_ro:?}]\npub mod ldr_ro;\n}}\n"),
    ];
    let out = PathBuf::from(std::env::var_os("OUT_DIR").unwrap()).join("rust.rs");
    std::fs::write(out, modules.concat()).unwrap();
    println!("cargo:rustc-cfg=sources");
}
