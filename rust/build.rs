// Links the proved archive. `rt lib` in crates/sharqudel proves the library and writes the archive there, in out/: this
// takes minutes the first time, and seconds where the crates that it depends on are already proved. To use an existing
// archive, set SHARQUDEL_ARCHIVE to its full path; the file must be called libsharqudel.a.
use std::path::{Path, PathBuf};
use std::process::Command;

fn main() {
    println!("cargo:rerun-if-env-changed=SHARQUDEL_ARCHIVE");
    let archive = match std::env::var_os("SHARQUDEL_ARCHIVE") {
        Some(file) => named(PathBuf::from(file)),
        None => proved(Path::new("..")),
    };
    let archive = archive.canonicalize().expect("there is no archive libsharqudel.a at that path");
    let folder = archive.parent().expect("a file is in a folder");
    println!("cargo:rustc-link-search=native={}", folder.display());
    println!("cargo:rustc-link-lib=static=sharqudel");
}

// The archive that SHARQUDEL_ARCHIVE names.
fn named(archive: PathBuf) -> PathBuf {
    assert_eq!(
        archive.file_name(),
        Some("libsharqudel.a".as_ref()),
        "SHARQUDEL_ARCHIVE must name a file libsharqudel.a"
    );
    println!("cargo:rerun-if-changed={}", archive.display());
    archive
}

// Proves the repository's library and writes its archive, again only if the sources changed. What is linked is a copy
// in cargo's own folder: rt ci takes the archive away, and rt lib writes it anew each time.
fn proved(root: &Path) -> PathBuf {
    println!("cargo:rerun-if-changed={}", root.join("crates.txt").display());
    // not a whole crate, since what rt makes lies in its folder out
    for crate_folder in std::fs::read_dir(root.join("crates")).expect("the repository has a folder crates") {
        let crate_folder = crate_folder.expect("the folder crates can be read").path();
        for part in ["src", "specs", "proofs"].map(|part| crate_folder.join(part)) {
            if part.is_dir() {
                println!("cargo:rerun-if-changed={}", part.display());
            }
        }
    }
    let library = root.join("crates/sharqudel");
    let told = Command::new("rt")
        .arg("lib")
        .current_dir(&library)
        .output()
        .expect("install the Rattle kit (command rt), or set SHARQUDEL_ARCHIVE to an existing archive");
    assert!(told.status.success(), "rt lib failed: run it in the folder crates/sharqudel to see why");
    let folder = std::env::var_os("OUT_DIR").expect("cargo gives a build script a folder");
    let copy = Path::new(&folder).join("libsharqudel.a");
    std::fs::copy(library.join("out/libsharqudel.a"), &copy).expect("rt lib writes the archive libsharqudel.a");
    copy
}
