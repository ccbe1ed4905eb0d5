//! build.rs links the shipped archive, or the one in `NW_LIB_DIR`, and says which, with its SHA-256. It warns if the shipped archive does
//! not have the hash of its record.
//!
//! The record is in the same repository, so this finds a damaged, changed or stale archive only. `.ci/library` compares the archive with
//! the one that the proofs give.

#[path = "../build/sha256.rs"]
mod sha256;

use narwhal_store::{ARCHIVE, Digest};
use sha256::sha256;
use std::path::{Path, PathBuf};
use std::process::{Command, Output};
use std::{env, fs};

const PACKAGE: &str = env!("CARGO_MANIFEST_DIR");
const OWN: &str = "x86_64-unknown-linux-gnu";
const OTHER: &str = "x86_64-unknown-freebsd";
const ARM: &str = "aarch64-unknown-linux-gnu";
/// Targets of Rust, and the target that the record of the linked archive names.
const TARGETS: [(&str, &str); 8] = [
    (OWN, OWN),
    ("x86_64-unknown-linux-musl", OWN),
    (ARM, ARM),
    ("aarch64-unknown-linux-musl", ARM),
    ("aarch64-apple-darwin", "arm64-apple-macosx11.0.0"),
    ("x86_64-apple-darwin", "x86_64-apple-macosx10.12.0"),
    ("x86_64-pc-windows-gnu", "x86_64-pc-windows-gnu"),
    ("riscv64gc-unknown-linux-gnu", "riscv64-unknown-linux-gnu"),
];

/// What sha256sum of coreutils prints for this file, or shasum of macOS.
fn hash_of(path: &Path) -> String {
    let (program, flags): (_, &[&str]) = match env::consts::OS {
        "macos" => ("shasum", &["-a", "256"]),
        _ => ("sha256sum", &[]),
    };
    let ran = Command::new(program).args(flags).arg(path).output();
    let printed = String::from_utf8(ran.expect(program).stdout);
    let printed = printed.expect("the output is text");
    printed.split(' ').next().unwrap_or_default().to_string()
}

/// A new folder for a test.
fn folder(name: &str) -> PathBuf {
    let folder = Path::new(env!("CARGO_TARGET_TMPDIR")).join(name);
    let _ = fs::remove_dir_all(&folder);
    fs::create_dir_all(&folder).expect("a folder");
    folder
}

/// build.rs as a program in this folder.
fn script(room: &Path) -> PathBuf {
    let script = room.join("build_script");
    let mut compiler = Command::new(option_env!("RUSTC").unwrap_or("rustc"));
    compiler.args(["--edition=2024", &format!("{PACKAGE}/build.rs"), "-o"]);
    let status = compiler.arg(&script).status();
    assert!(status.expect("rustc").success());
    script
}

/// A run of build.rs for this target and for the package in this folder.
fn command(script: &Path, target: &str, package: &Path) -> Command {
    let mut command = Command::new(script);
    command.env_remove("NW_LIB_DIR").env_remove("DOCS_RS");
    command
        .env("TARGET", target)
        .env("CARGO_MANIFEST_DIR", package);
    command
}

/// Runs build.rs for this target and this package, and with the folder `NW_LIB_DIR` if it is given.
fn build(script: &Path, target: &str, chosen: Option<&Path>) -> Output {
    let mut command = command(script, target, Path::new(PACKAGE));
    if let Some(chosen) = chosen {
        command.env("NW_LIB_DIR", chosen);
    }
    command.output().expect("build.rs runs")
}

fn said(output: &Output) -> String {
    String::from_utf8_lossy(&output.stdout).into_owned()
}

/// The archive that these lines of build.rs link.
fn linked(said: &str) -> PathBuf {
    let value = |key: &str| said.lines().find_map(|line| line.strip_prefix(key));
    let folder = value("cargo::rustc-link-search=native=").expect("a folder");
    let name = value("cargo::rustc-link-lib=static=").expect("a library");
    Path::new(folder).join(format!("lib{name}.a"))
}

/// Cargo builds the crate again if its library or a choice of it changes, and links one such crate into a program.
fn is_watched(said: &str, files: &[&str]) {
    let has = |wanted: &str| said.lines().any(|line| line == wanted);
    for line in [
        "changed=build.rs",
        "changed=build/sha256.rs",
        "env-changed=NW_LIB_DIR",
        "env-changed=DOCS_RS",
    ] {
        assert!(has(&format!("cargo::rerun-if-{line}")), "{line}: {said}");
    }
    let archive = linked(said);
    for file in files {
        let file = archive.with_file_name(file);
        let line = format!("cargo::rerun-if-changed={}", file.display());
        assert!(has(&line), "{line} is missing: {said}");
    }
    let line = format!("cargo::metadata=archive={}", archive.display());
    assert!(has(&line), "{line} is missing: {said}");
    assert!(include_str!("../Cargo.toml").contains("\nlinks = \"nw_c\"\n"));
}

#[test]
fn the_linked_archive_is_the_shipped_one() {
    let Some(hash) = ARCHIVE.strip_prefix("shipped libnw.a sha256:") else {
        assert!(ARCHIVE.starts_with("NW_LIB_DIR lib"), "{ARCHIVE}");
        return;
    };
    let (machine, system) = (env::consts::ARCH, env::consts::OS);
    let shipped = format!("{PACKAGE}/prebuilt/{machine}-{system}/libnw.a");
    assert_eq!(hash_of(Path::new(&shipped)), hash);
    // The archive computes this digest, so a program that does not link it computes the digest above.
    let archive = fs::read(&shipped).expect("the shipped archive");
    assert_eq!(Digest::of(&archive).to_string(), hash);
}

#[test]
fn the_description_has_no_path() {
    assert!(!ARCHIVE.contains('/'), "{ARCHIVE}");
}

#[test]
fn build_rs_hashes_as_sha256sum_does() {
    let file = folder("hashed").join("bytes");
    let bytes: Vec<u8> = (0..=255).cycle().skip(7).take(1_000).collect();
    // The padding takes a block of its own from 56 bytes after a block on.
    for length in [0, 1, 3, 55, 56, 63, 64, 65, 119, 120, 128, 1_000] {
        fs::write(&file, &bytes[..length]).expect("a file");
        assert_eq!(sha256(&bytes[..length]), hash_of(&file), "{length} bytes");
    }
}

#[test]
fn build_rs_links_the_chosen_library_or_the_shipped_one_for_its_target() {
    let room = folder("chosen");
    let (script, empty) = (script(&room), sha256(b""));
    fs::write(room.join("libnw_c.a"), "").expect("a library");
    for (target, recorded) in TARGETS {
        let shipped = build(&script, target, None);
        let text = said(&shipped);
        assert!(shipped.status.success() && !text.contains("cargo::warning"));
        assert!(text.contains("NW_ARCHIVE=shipped libnw.a sha256:"));
        let record = fs::read_to_string(linked(&text).with_extension("record"));
        let record = record.expect("a record");
        assert!(
            record.contains(&format!("\ntarget {recorded}\n")),
            "{target}"
        );
        is_watched(&text, &["libnw.a", "libnw.record"]);
    }
    let refused = build(&script, OTHER, None);
    assert_eq!(refused.status.code(), Some(1));
    let message = String::from_utf8_lossy(&refused.stderr);
    assert!(
        TARGETS.iter().all(|(it, _)| message.contains(it)),
        "{message}"
    );
    assert!(message.contains("elsewhere"), "{message}");
    let mut documents = command(&script, OTHER, Path::new(PACKAGE));
    let documents = documents.env("DOCS_RS", "1").output();
    let documents = documents.expect("build.rs runs");
    assert!(documents.status.success() && !said(&documents).contains("rustc-link"));
    let links = |target: &str, name: &str| {
        let linked = said(&build(&script, target, Some(&room)));
        is_watched(&linked, &[name]);
        for line in [
            format!("rustc-link-search=native={}\n", room.display()),
            format!("NW_ARCHIVE=NW_LIB_DIR {name} sha256:{empty}\n"),
            format!(
                "cargo::warning=the store is linked from NW_LIB_DIR, and not as shipped: {}/{name}\n",
                room.display()
            ),
        ] {
            assert!(linked.contains(&line), "{linked}");
        }
    };
    // Of two libraries, the one that `.ci/library` leaves is linked.
    fs::write(room.join("libnw.a"), "x").expect("a library");
    [OWN, OTHER].iter().for_each(|it| links(it, "libnw_c.a"));
    fs::write(room.join("libnw.a"), "").expect("a library");
    fs::remove_file(room.join("libnw_c.a")).expect("a file");
    fs::create_dir(room.join("libnw_c.a")).expect("a folder is no library");
    links(OWN, "libnw.a");
    for folder in [Path::new("relative"), Path::new(""), &room.join("missing")] {
        assert_eq!(build(&script, OWN, Some(folder)).status.code(), Some(1));
    }
}

/// Without its archive, or without a record that has a hash, the shipped library is not linked.
#[test]
fn build_rs_links_no_shipped_archive_without_its_record() {
    let room = folder("unrecorded");
    let (script, shipped) = (script(&room), room.join("prebuilt/x86_64-linux"));
    fs::create_dir_all(&shipped).expect("a folder");
    let outcome = || {
        let output = command(&script, OWN, &room)
            .output()
            .expect("build.rs runs");
        assert!(output.status.success() == said(&output).contains("rustc-link-lib"));
        output.status.code()
    };
    let record = format!("archive {}\n", sha256(b""));
    for (archive, record, code) in [
        (None, None, 1),
        (Some(""), None, 1),
        (None, Some(&record), 1),
        (Some(""), Some(&"no hash\n".to_string()), 1),
        (Some(""), Some(&record), 0),
    ] {
        for (name, content) in [
            ("libnw.a", archive),
            ("libnw.record", record.map(String::as_str)),
        ] {
            let _ = fs::remove_file(shipped.join(name));
            if let Some(content) = content {
                fs::write(shipped.join(name), content).expect("a file");
            }
        }
        assert_eq!(outcome(), Some(code), "{archive:?} and {record:?}");
    }
}

#[test]
fn build_rs_warns_of_a_changed_archive_and_the_description_repeats_it() {
    let room = folder("changed");
    let (script, shipped) = (script(&room), "prebuilt/x86_64-linux");
    fs::create_dir_all(room.join(shipped)).expect("a folder");
    for name in ["libnw.a", "libnw.record"] {
        let copied = fs::copy(
            format!("{PACKAGE}/{shipped}/{name}"),
            room.join(shipped).join(name),
        );
        copied.expect("a copy");
    }
    let archive = room.join(shipped).join("libnw.a");
    let before = hash_of(&archive);
    let mut bytes = fs::read(&archive).expect("the copied archive");
    // An empty member of an archive: name, time, owner, group, mode and size in 60 bytes.
    let empty = format!(
        "{:<16}{:<12}{:<6}{:<6}{:<8}{:<10}`\n",
        "more.o/", 0, 0, 0, 644, 0
    );
    bytes.extend(empty.as_bytes());
    fs::write(&archive, bytes).expect("a changed archive");

    let output = command(&script, OWN, &room).output();
    let linked = said(&output.expect("build.rs runs"));
    let hash = hash_of(&archive);
    assert_ne!(hash, before);
    let description = format!("NW_ARCHIVE=CHANGED libnw.a sha256:{hash}\n");
    assert!(linked.contains(&description), "{linked}");
    let mut warnings = linked
        .lines()
        .filter(|it| it.starts_with("cargo::warning="));
    let warning = warnings.next().expect("a warning");
    for part in [shipped, &hash, &before] {
        assert!(warning.contains(part), "{warning}");
    }
}
