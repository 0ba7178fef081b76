//! Links the static library of the map, and the C library of the kit below it.
use std::env;
use std::path::{Path, PathBuf};
use std::process::Command;

/// The folder of the repository: the nearest one above with the list of crates.
fn top() -> PathBuf {
    let folder = PathBuf::from(env::var_os("CARGO_MANIFEST_DIR").expect("cargo names the folder"));
    let has_list = |folder: &&Path| folder.join("crates.txt").exists();
    let found = folder.ancestors().find(has_list).map(Path::to_path_buf);
    found.expect("crates.txt stands at the top of the repository")
}

/// The folder of the kit, whose first page `rt doc` names.
fn kit() -> PathBuf {
    let said = Command::new("rt")
        .arg("doc")
        .output()
        .expect("rt is on PATH");
    let page = String::from_utf8(said.stdout).expect("a path");
    Path::new(page.trim())
        .parent()
        .expect("a page in a folder")
        .to_path_buf()
}

fn main() {
    let libraries = [
        top().join("crates/multimap_bench/out/libmultimap_bench.a"),
        kit().join("c/liblibc_c.a"),
    ];
    for library in libraries {
        println!("cargo::rerun-if-changed={}", library.display());
        println!("cargo::rustc-link-arg-bins={}", library.display());
    }
    println!("cargo::rerun-if-env-changed=BENCH_VERSIONS");
}
