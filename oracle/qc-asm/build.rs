//! qc-asm's lib.rs looks for `visa.rs` and `../README.md` beside itself, which were not published. So a copy of it
//! is compiled, in a folder of OUT_DIR that holds copies of our stand-ins where it looks for them. (Not links: the
//! gate takes none, wherever below the repository they stand.)
use std::{env, fs, path::Path};

fn main() {
    let here = env::var("CARGO_MANIFEST_DIR").unwrap();
    let here = Path::new(&here);
    let rust = here.join("../../../shared/docs/src/crates/qc-asm/src/lib.rs");
    let rust = fs::canonicalize(&rust).unwrap_or_else(|e| panic!("{}: {e}", rust.display()));
    let out = env::var("OUT_DIR").unwrap();
    let out = Path::new(&out);
    let src = out.join("src");
    fs::create_dir_all(&src).unwrap();
    for (from, to) in [
        (rust.clone(), src.join("lib.rs")),
        (here.join("stand-in/visa.rs"), src.join("visa.rs")),
        (here.join("stand-in/README.md"), out.join("README.md")),
    ] {
        fs::copy(from, to).unwrap();
    }
    fs::write(
        out.join("glue.rs"),
        format!("#[path = {:?}]\nmod published;\npub use published::*;\n", src.join("lib.rs")),
    )
    .unwrap();
    println!("cargo::rerun-if-changed={}", rust.display());
    println!("cargo::rerun-if-changed=stand-in");
}
