//! Links the static library that `host/build` makes.
use std::path::PathBuf;

fn main() {
    let target = std::env::var("TARGET").unwrap();
    if !target.starts_with("x86_64") || !target.contains("linux") {
        fail(&format!("the library is for x86-64 Linux, and not for {target}"));
    }
    let folder = PathBuf::from(env!("CARGO_MANIFEST_DIR")).join("../target/lib");
    let library = folder.join("libfillqhano.a");
    println!("cargo:rerun-if-changed={}", library.display());
    if !library.exists() {
        let build = PathBuf::from(env!("CARGO_MANIFEST_DIR")).join("build");
        fail(&format!("{} is not built. This command makes it: {}", library.display(), build.display()));
    }
    println!("cargo:rustc-link-search=native={}", folder.display());
    println!("cargo:rustc-link-lib=static=fillqhano");
}

fn fail(what: &str) -> ! {
    eprintln!("{what}");
    std::process::exit(1);
}
