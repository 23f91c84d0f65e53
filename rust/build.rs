//! Links the proved library, which is taken
//!   - from `MARKS_ARCHIVE`, where that names an archive (libmarks.a as it is installed, or made by tools/native-archive): then no toolchain is needed;
//!   - else from the archive that the source tree keeps in target/, where that is up to date;
//!   - else it is proved in the output folder, from a copy of the crates: nothing is written into the source tree. What `rt` proved of them there
//!     or elsewhere on the machine it takes by itself.
use std::{
    env, fs, io,
    path::{Path, PathBuf},
    process::{exit, Command},
};

/// The processors that there are archives for, all with Linux: what Rust calls them, and their number in an object file.
const MACHINES: [(&str, u16); 2] = [("x86_64", 62), ("aarch64", 183)];

/// The status of `native-archive --kept` where nothing is kept.
const NOT_KEPT: i32 = 3;

/// What a proof is made from.
const SOURCES: [&str; 3] = ["crates.txt", "crates", "tools/native-archive"];

fn no(what: &str, advice: &str) -> ! {
    eprintln!("marks: {what}; {advice}");
    exit(1)
}

fn variable(name: &str) -> String {
    env::var(name).unwrap_or_else(|_| no(&format!("{name} is not set"), "this is run by cargo"))
}

fn main() {
    let (out, machine) = (PathBuf::from(variable("OUT_DIR")), machine());
    let archive = out.join("libmarks_c.a");
    println!("cargo:rerun-if-env-changed=MARKS_ARCHIVE");
    match env::var_os("MARKS_ARCHIVE") {
        Some(ready) => take_ready(Path::new(&ready), machine, &archive),
        None => take_proved(machine.0, &out, &archive),
    }
    println!("cargo:rustc-link-search=native={}", out.display());
    println!("cargo:rustc-link-lib=static=marks_c");
    println!("cargo:archive={}", archive.display());
}

fn machine() -> (&'static str, u16) {
    let (arch, os) = (variable("CARGO_CFG_TARGET_ARCH"), variable("CARGO_CFG_TARGET_OS"));
    let known = MACHINES.into_iter().find(|(name, _)| *name == arch && os == "linux");
    known.unwrap_or_else(|| {
        no(&format!("there is no archive for {}", variable("TARGET")), "it is there for Linux on x86-64 and on Arm (aarch64)")
    })
}

fn take_ready(ready: &Path, machine: (&str, u16), archive: &Path) {
    if ready.is_relative() {
        no(&format!("MARKS_ARCHIVE is {}, and nobody knows from where", ready.display()), "give the whole path, from / on");
    }
    println!("cargo:rerun-if-changed={}", ready.display());
    let name = format!("the archive of MARKS_ARCHIVE, {}", ready.display());
    let bytes = fs::read(ready).unwrap_or_else(|error| no(&format!("{name}, cannot be read: {error}"), "name the file libmarks.a"));
    // the first object in it says which processor it is for
    match bytes.windows(20).find(|part| part.starts_with(b"\x7fELF")) {
        Some(head) if u16::from_le_bytes([head[18], head[19]]) == machine.1 => {}
        Some(_) => no(&format!("{name}, is for another processor than {}", machine.0), "name one that is for it"),
        None => no(&format!("{name}, has no object in it"), "name the file libmarks.a"),
    }
    fs::write(archive, bytes).unwrap_or_else(|error| no(&format!("{} cannot be written: {error}", archive.display()), "make room there"));
}

fn take_proved(machine: &str, out: &Path, archive: &Path) {
    let top = Path::new(&variable("CARGO_MANIFEST_DIR")).parent().map_or_else(PathBuf::new, Path::to_path_buf);
    if let Some(missing) = SOURCES.iter().find(|source| !top.join(source).exists()) {
        no(
            &format!("there is no {missing} beside this crate, so the library cannot be proved here"),
            "set MARKS_ARCHIVE to the libmarks.a of an installed one",
        );
    }
    watch(&top, machine);
    let native_archive = |top: &Path, kept: &[&str]| {
        let mut made = Command::new(top.join("tools/native-archive"));
        let made = made.args(kept).arg("marks_c").arg(archive).env("MARKS_MACHINE", machine).current_dir(top).status();
        made.ok().and_then(|status| status.code())
    };
    let code = match native_archive(&top, &["--kept"]) {
        Some(NOT_KEPT) => {
            let copy = out.join("proof");
            copy_sources(&top, &copy)
                .unwrap_or_else(|error| no(&format!("{} cannot be written: {error}", copy.display()), "make room there"));
            let code = native_archive(&copy, &[]);
            // where the output folder lies in the source tree, `rt ci` would refuse the crates in it
            let _ = fs::remove_dir_all(copy);
            code
        }
        other => other,
    };
    if code != Some(0) {
        no(
            "the library could not be proved (above is why)",
            "it needs the Rattle toolchain, rt, that README.md names; without it set MARKS_ARCHIVE to the libmarks.a of an installed library",
        );
    }
}

/// The library is taken again where its sources or the toolchain moved, and where the source tree's own archive was made anew, as by each run of the gate.
/// Cargo takes a file that is not there for one that has changed, so only those that are there are named.
/// Of a crate that is what it is proved from, and not the folder out/, in which `rt` works.
fn watch(top: &Path, machine: &str) {
    let kept = format!("target/native/{machine}/libmarks_c.a");
    let files = ["crates.txt", "tools/native-archive", "kit", &kept].map(|name| top.join(name));
    let crates = fs::read_dir(top.join("crates")).into_iter().flatten().flatten();
    let parts = crates.flat_map(|it| ["src", "specs", "proofs"].map(|part| it.path().join(part)));
    for watched in files.into_iter().chain(parts).filter(|path| path.exists()) {
        println!("cargo:rerun-if-changed={}", watched.display());
    }
}

/// A copy to work in.
fn copy_sources(top: &Path, copy: &Path) -> io::Result<()> {
    let _ = fs::remove_dir_all(copy);
    SOURCES.into_iter().try_for_each(|source| copy_all(&top.join(source), &copy.join(source)))
}

fn copy_all(from: &Path, to: &Path) -> io::Result<()> {
    if !from.is_dir() {
        fs::create_dir_all(to.parent().unwrap_or(to))?;
        return fs::copy(from, to).map(|_| ());
    }
    for entry in fs::read_dir(from)? {
        let name = entry?.file_name();
        // what `rt` keeps in a crate may be large, and it finds it from the copy, too
        if name == "out" {
            continue;
        }
        copy_all(&from.join(&name), &to.join(&name))?;
    }
    Ok(())
}
