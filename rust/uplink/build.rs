//! Links the archive that `rust/archive` leaves, unless a source has changed since.
use std::fs;
use std::path::Path;
use std::time::SystemTime;

fn main() {
    let root = Path::new(env!("CARGO_MANIFEST_DIR")).join("../..");
    let sources = root.join("crates");
    let folder = root.join("target/native");
    let archive = folder.join("libexports.a");
    println!("cargo:rerun-if-changed={}", sources.display());
    println!("cargo:rerun-if-changed={}", archive.display());
    match fs::metadata(&archive).and_then(|archive| archive.modified()) {
        Ok(made) if newest(&sources) <= made => {}
        Ok(_) => {
            panic!("a source is newer than target/native/libexports.a: run rust/archive again")
        }
        Err(_) => panic!("no target/native/libexports.a: run rust/archive first"),
    }
    println!("cargo:rustc-link-search=native={}", folder.display());
    println!("cargo:rustc-link-lib=static=exports");
}

/// When the youngest file below a folder was written.
fn newest(folder: &Path) -> SystemTime {
    let entries = fs::read_dir(folder).into_iter().flatten().flatten();
    entries
        .map(|entry| match entry.metadata() {
            Ok(data) if data.is_dir() => newest(&entry.path()),
            Ok(data) => data.modified().unwrap_or(SystemTime::UNIX_EPOCH),
            Err(_) => SystemTime::UNIX_EPOCH,
        })
        .max()
        .unwrap_or(SystemTime::UNIX_EPOCH)
}
