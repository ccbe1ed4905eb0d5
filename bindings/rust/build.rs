//! Links the static library of the store.
//!
//! This is the one that the package ships in `prebuilt`. If `NW_LIB_DIR` is set, it is the one in
//! that folder, and cargo prints a warning that names it. Cargo also prints a warning if the shipped
//! library does not have the hash of its record.

#[path = "build/sha256.rs"]
mod sha256;

use sha256::sha256;
use std::env;
use std::fs;
use std::path::{Path, PathBuf};
use std::process;

/// The targets of the shipped libraries, and the folder of each in this package. One library serves
/// several targets, because it calls only the `mem*` functions of libc.
const SHIPPED: [(&str, &str); 8] = [
    ("x86_64-unknown-linux-gnu", "prebuilt/x86_64-linux"),
    ("x86_64-unknown-linux-musl", "prebuilt/x86_64-linux"),
    ("aarch64-unknown-linux-gnu", "prebuilt/aarch64-linux"),
    ("aarch64-unknown-linux-musl", "prebuilt/aarch64-linux"),
    ("aarch64-apple-darwin", "prebuilt/aarch64-macos"),
    ("x86_64-apple-darwin", "prebuilt/x86_64-macos"),
    ("x86_64-pc-windows-gnu", "prebuilt/x86_64-windows"),
    ("riscv64gc-unknown-linux-gnu", "prebuilt/riscv64-linux"),
];
/// The names that a library may have in the folder `NW_LIB_DIR`: as `.ci/library` leaves it, and as the
/// package ships it.
const NAMES: [&str; 2] = ["libnw_c.a", "libnw.a"];
/// How to get another library.
const BUILD_ONE: &str = "Or set NW_LIB_DIR to the absolute path of a folder with libnw_c.a for \
     your target. In a clone of the repository, `.ci/library` leaves them in crates/nw_c/out. For \
     a target that is not among them, add it to .ci/archives.py, and run \
     `bindings/rust/prebuilt/elsewhere`.";

/// A library: its file, where it comes from, and the SHA-256 in its record if it has one.
struct Library {
    path: PathBuf,
    origin: &'static str,
    recorded: Option<String>,
}

fn main() {
    println!("cargo::rerun-if-changed=build.rs");
    println!("cargo::rerun-if-changed=build/sha256.rs");
    println!("cargo::rerun-if-env-changed=NW_LIB_DIR");
    println!("cargo::rerun-if-env-changed=DOCS_RS");
    // Documents need no library, so a machine that only builds documents may have any target.
    if env::var_os("DOCS_RS").is_some() {
        println!("cargo::rustc-env=NW_ARCHIVE=none");
        return;
    }
    let library = match env::var_os("NW_LIB_DIR") {
        Some(folder) => chosen(Path::new(&folder)),
        None => shipped(),
    };
    if let Err(what_to_do) = library.and_then(link) {
        eprintln!("{what_to_do}");
        process::exit(1);
    }
}

/// The library in the folder `NW_LIB_DIR`, or what to do to get one.
fn chosen(folder: &Path) -> Result<Library, String> {
    let [proved, shipped] = NAMES;
    let text = folder.display();
    if !folder.is_absolute() {
        return Err(format!(
            "NW_LIB_DIR is {text}, which is not an absolute path"
        ));
    }
    let name = NAMES.into_iter().find(|name| folder.join(name).is_file());
    let name =
        name.ok_or_else(|| format!("NW_LIB_DIR is {text}, which has no {proved} or {shipped}"))?;
    println!(
        "cargo::warning=the store is linked from NW_LIB_DIR, and not as shipped: {text}/{name}"
    );
    Ok(Library {
        path: folder.join(name),
        origin: "NW_LIB_DIR",
        recorded: None,
    })
}

/// The library that the package ships, or what to do to get one.
fn shipped() -> Result<Library, String> {
    let target = env::var("TARGET").unwrap_or_default();
    let Some((_, folder)) = SHIPPED.iter().find(|(name, _)| *name == target) else {
        let names = SHIPPED.map(|(name, _)| name).join(", ");
        return Err(format!(
            "narwhal-store ships libraries for {names}, and not for {target}. Build for one of \
             these. {BUILD_ONE}"
        ));
    };
    let package = PathBuf::from(env::var_os("CARGO_MANIFEST_DIR").unwrap_or_default());
    let folder = package.join(folder);
    let (path, record) = (folder.join("libnw.a"), folder.join("libnw.record"));
    println!("cargo::rerun-if-changed={}", record.display());
    let missing = || {
        format!(
            "{} has no libnw.a, or no libnw.record with its hash. Get the package narwhal-store \
             again, with this folder. {BUILD_ONE}",
            folder.display()
        )
    };
    let record = fs::read_to_string(record).map_err(|_| missing())?;
    let mut hashes = record
        .lines()
        .filter_map(|line| line.strip_prefix("archive "));
    let recorded = hashes
        .next()
        .filter(|_| path.is_file())
        .ok_or_else(missing)?;
    Ok(Library {
        path,
        origin: "shipped",
        recorded: Some(recorded.into()),
    })
}

/// Links the library into the crate. The crate gets its origin, its name and its SHA-256, and no
/// path.
fn link(library: Library) -> Result<(), String> {
    let path = library.path.canonicalize().unwrap_or(library.path);
    let content = fs::read(&path).map_err(|why| format!("{}: {why}", path.display()))?;
    let (hash, mut origin) = (sha256(&content), library.origin);
    if let Some(recorded) = library.recorded.filter(|it| *it != hash) {
        origin = "CHANGED";
        println!(
            "cargo::warning=THE LIBRARY IS NOT AS SHIPPED: {} has the SHA-256 {hash}, and its \
             record has {recorded}",
            path.display()
        );
    }
    let folder = path.parent().unwrap_or(Path::new("."));
    let file = path.file_name().unwrap_or_default().to_string_lossy();
    let name = file.trim_start_matches("lib").trim_end_matches(".a");
    println!("cargo::rerun-if-changed={}", path.display());
    println!("cargo::rustc-link-search=native={}", folder.display());
    println!("cargo::rustc-link-lib=static={name}");
    println!("cargo::rustc-env=NW_ARCHIVE={origin} {file} sha256:{hash}");
    println!("cargo::metadata=archive={}", path.display());
    Ok(())
}
