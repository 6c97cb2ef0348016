// Links the proved library: the file that BAYS_LIB names, or the one that `rt lib` leaves in crates/bays/out.
use std::env;
use std::path::PathBuf;

fn main() {
    println!("cargo:rerun-if-env-changed=BAYS_LIB");
    let library = match env::var_os("BAYS_LIB") {
        Some(named) => PathBuf::from(named),
        None => PathBuf::from(env!("CARGO_MANIFEST_DIR")).join("../crates/bays/out/libbays.a"),
    };
    let library = library.canonicalize().unwrap_or_else(|error| {
        panic!(
            "{} is missing ({error}): make it by `rt lib` in crates/bays, or name it in BAYS_LIB",
            library.display()
        )
    });
    println!("cargo:rerun-if-changed={}", library.display());
    let folder = library.parent().expect("a file lies in a folder");
    let name = library.file_name().expect("a file has a name");
    println!("cargo:rustc-link-search=native={}", folder.display());
    println!(
        "cargo:rustc-link-lib=static:+verbatim={}",
        name.to_string_lossy()
    );
}
