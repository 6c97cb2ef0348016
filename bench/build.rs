// Compiles the C++ of `shim/` for a processor (BENCH_CPU), and says where the static library of the bays lies (BAYS_LIB).
use std::env;
use std::path::Path;
use std::process::Command;

fn run(program: &str, arguments: &[&str]) {
    let status = Command::new(program).args(arguments).status();
    assert!(status.is_ok_and(|status| status.success()), "{program} {arguments:?} failed");
}

// Keeps jumps off the ends of 32 bytes, where an erratum of some processors makes them slow by chance.
const ALIGNED: &str = "-Wa,-mbranches-within-32B-boundaries";

fn main() {
    let out = env::var("OUT_DIR").expect("cargo sets OUT_DIR");
    let march = format!("-march={}", env::var("BENCH_CPU").expect("bench/run sets BENCH_CPU"));
    let archive = format!("{out}/libshim.a");
    for name in ["sdsl", "roaring"] {
        let (source, object) = (format!("shim/{name}.cpp"), format!("{out}/{name}.o"));
        run("g++", &["-O2", "-DNDEBUG", "-std=c++17", &march, ALIGNED, "-c", &source, "-o", &object]);
        run("ar", &["crs", &archive, &object]);
    }
    let bays = env::var("BAYS_LIB").expect("bench/run sets BAYS_LIB");
    let folder = Path::new(&bays).parent().expect("a library lies in a folder").display();
    println!("cargo:rustc-link-search=native={out}");
    println!("cargo:rustc-link-search=native={folder}");
    for library in ["static=shim", "bays", "static=sdsl", "roaring", "stdc++"] {
        println!("cargo:rustc-link-lib={library}");
    }
    for seen in ["shim", &bays] {
        println!("cargo:rerun-if-changed={seen}");
    }
    println!("cargo:rustc-link-arg=-Wl,-rpath,{folder}");
    for seen in ["BAYS_LIB", "BENCH_CPU"] {
        println!("cargo:rerun-if-env-changed={seen}");
    }
}
