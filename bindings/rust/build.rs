//! Finds libdampmeadow.a for the machine that is compiled for, or builds it with `./library`, or says what is missing.
//!
//! The library is in Linux's object format, ELF, so a build for another system is refused, and so is one for a processor that
//! is not in the list below. It is looked for in the folder DAMPMEADOW_LIB_DIR, where that is set and not empty, and nowhere
//! else then. Else in the repository's target/staticlib, where `./library` writes it for x86-64, and in target/library, where
//! `./library dampmeadow TARGET` writes it for another processor, in a folder of the target's name. One that is for another
//! machine, or older than the crates it is built from, is not taken. To build it is to prove it first, which takes some minutes.

use std::path::{Path, PathBuf};
use std::process::{exit, Command};
use std::time::SystemTime;
use std::{env, fmt, fs, io};

const LIBRARY: &str = "libdampmeadow.a";

fn main() {
    println!("cargo:rerun-if-env-changed=DAMPMEADOW_LIB_DIR");
    println!("cargo:rerun-if-changed=build.rs");
    match folder() {
        Ok(folder) => {
            println!("cargo:rerun-if-changed={}", folder.join(LIBRARY).display());
            println!("cargo:rustc-link-search=native={}", folder.display());
            println!("cargo:rustc-link-lib=static=dampmeadow");
        }
        Err(why) => {
            eprintln!("dampmeadow: {why}");
            exit(1);
        }
    }
}

/// The folder that holds the library.
fn folder() -> Result<PathBuf, String> {
    let target = Machine::wanted()?;
    if let Some(given) = env::var_os("DAMPMEADOW_LIB_DIR").filter(|given| !given.is_empty()) {
        // a build script runs in its own crate's folder, which is not where the user stands
        let given = env::current_dir().unwrap_or_default().join(given);
        return match fault(&given, target, None) {
            None => Ok(given),
            Some(fault) => Err(format!("DAMPMEADOW_LIB_DIR, which is best a path from the root: {fault}")),
        };
    }

    let root = repository()?;
    let sources = sources(&root);
    for source in &sources {
        println!("cargo:rerun-if-changed={}", source.display());
    }
    let (staticlib, library) = (root.join("target/staticlib"), root.join("target/library").join(target.name()));
    let changed = sources.iter().filter_map(|source| newest(source)).max();
    let mut faults = Vec::new();
    for folder in [&staticlib, &library] {
        match fault(folder, target, changed) {
            None => return Ok(folder.clone()),
            Some(fault) => faults.push(fault),
        }
    }
    let faults = faults.join("; ");
    if target != Machine::X86_64 {
        return Err(format!(
            "{faults}. This build is for {target}: run ./library dampmeadow {} in the repository once, on x86-64 Linux, or set \
             DAMPMEADOW_LIB_DIR to a folder that holds a {LIBRARY} for {target}",
            target.name()
        ));
    }
    build(&root).map_err(|why| format!("{faults}. {why}"))?;
    match fault(&staticlib, target, None) {
        None => Ok(staticlib),
        Some(fault) => Err(format!("./library ended well, but {fault}")),
    }
}

/// What the library is built from: the list of the crates, and of each crate all but what `rt` makes.
fn sources(root: &Path) -> Vec<PathBuf> {
    let crates = fs::read_dir(root.join("crates")).into_iter().flatten().flatten().map(|entry| entry.path());
    let parts = crates.flat_map(|of| ["src", "specs", "proofs"].map(|part| of.join(part)));
    parts.filter(|part| part.is_dir()).chain([root.join("crates.txt")]).collect()
}

/// The repository that this folder stands in as bindings/rust.
fn repository() -> Result<PathBuf, String> {
    let here = PathBuf::from(env::var_os("CARGO_MANIFEST_DIR").unwrap_or_default());
    let here = here.canonicalize().unwrap_or(here);
    match here.ancestors().nth(2) {
        Some(root) if root.join("crates/dampmeadow").is_dir() => Ok(root.to_path_buf()),
        _ => Err(format!(
            "{} stands outside the repository, so there is nothing to build the library from: set DAMPMEADOW_LIB_DIR to a \
             folder that holds {LIBRARY}",
            here.display()
        )),
    }
}

/// Proves and builds the library, for x86-64.
fn build(root: &Path) -> Result<(), String> {
    let target = root.join("target");
    let trial = target.join("staticlib.trial");
    fs::create_dir_all(&target)
        .and_then(|()| fs::write(&trial, ""))
        .and_then(|()| fs::remove_file(&trial))
        .map_err(|why| format!("{} cannot be written to, where the library is built: {why}", target.display()))?;
    let run = Command::new(root.join("library")).arg("dampmeadow").output();
    let run = run.map_err(|why| format!("./library could not be run: {why}"))?;
    if run.status.success() {
        return Ok(());
    }
    let said = String::from_utf8_lossy(&run.stderr).into_owned();
    Err(format!(
        "./library did not build it ({}): {said}Else set DAMPMEADOW_LIB_DIR to a folder that holds {LIBRARY}",
        run.status
    ))
}

/// What is wrong with the library in a folder, if anything.
fn fault(folder: &Path, target: Machine, changed: Option<SystemTime>) -> Option<String> {
    let path = folder.join(LIBRARY);
    let bytes = match fs::read(&path) {
        Ok(bytes) => bytes,
        Err(why) if why.kind() == io::ErrorKind::NotFound => return Some(format!("there is no {}", path.display())),
        Err(why) => return Some(format!("{} cannot be read: {why}", path.display())),
    };
    match Machine::of(&bytes) {
        None => return Some(format!("{} holds no object of Linux's format, ELF", path.display())),
        Some(has) if has != target => return Some(format!("{} is for {has}, not for {target}", path.display())),
        Some(_) => {}
    }
    let made = fs::metadata(&path).and_then(|about| about.modified()).ok();
    if changed > made {
        return Some(format!("{} is older than the crates", path.display()));
    }
    None
}

/// When something at or under a path last changed.
fn newest(path: &Path) -> Option<SystemTime> {
    let own = fs::metadata(path).and_then(|about| about.modified()).ok();
    let within = fs::read_dir(path).into_iter().flatten().flatten().filter_map(|entry| newest(&entry.path())).max();
    own.max(within)
}

/// A processor as the head of an ELF object names it: how wide its words are, the order of its bytes, and its number.
#[derive(Clone, Copy, PartialEq)]
struct Machine {
    class: u8,
    order: u8,
    number: u16,
}

impl Machine {
    const X86_64: Machine = Machine { class: 2, order: 1, number: 62 };

    /// Those that a library is known for, under Rust's names.
    const KNOWN: [(&'static str, Machine); 3] = [
        ("x86_64", Machine::X86_64),
        ("aarch64", Machine { class: 2, order: 1, number: 183 }),
        ("riscv64", Machine { class: 2, order: 1, number: 243 }),
    ];

    /// The machine that is compiled for.
    fn wanted() -> Result<Machine, String> {
        let [processor, system, width, order] = ["ARCH", "OS", "POINTER_WIDTH", "ENDIAN"]
            .map(|name| env::var(format!("CARGO_CFG_TARGET_{name}")).unwrap_or_default());
        let target = env::var("TARGET").unwrap_or_else(|_| format!("{processor} {system}"));
        if system != "linux" {
            return Err(format!(
                "{LIBRARY} is in Linux's object format, ELF, and this build is for {target}: it cannot be linked"
            ));
        }
        // a processor may run with narrower words, or its bytes the other way round, under the same name
        match Machine::KNOWN.iter().find(|(name, _)| *name == processor) {
            Some((_, machine)) if width == "64" && order == "little" => Ok(*machine),
            _ => {
                Err(format!("there is no {LIBRARY} for {target}: ./library builds it for Linux on x86-64, aarch64 or riscv64"))
            }
        }
    }

    /// The name that `./library` takes for it.
    fn name(self) -> String {
        let known = Machine::KNOWN.iter().find(|(_, known)| *known == self);
        format!("{}-unknown-linux-gnu", known.map_or("unknown", |(name, _)| name))
    }

    /// What the first ELF object of an archive is for.
    fn of(archive: &[u8]) -> Option<Machine> {
        const HEADER: usize = 60;
        let mut rest = archive.strip_prefix(b"!<arch>\n")?;
        while rest.len() > HEADER {
            let (header, members) = rest.split_at(HEADER);
            let size: usize = std::str::from_utf8(&header[48..58]).ok()?.trim().parse().ok()?;
            let object = members.get(..size)?;
            if object.starts_with(b"\x7fELF") && size > 20 {
                let (class, order, bytes) = (object[4], object[5], [object[18], object[19]]);
                let number = if order == 2 { u16::from_be_bytes(bytes) } else { u16::from_le_bytes(bytes) };
                return Some(Machine { class, order, number });
            }
            // members begin at even places
            rest = members.get(size + size % 2..)?;
        }
        None
    }
}

impl fmt::Display for Machine {
    fn fmt(&self, out: &mut fmt::Formatter) -> fmt::Result {
        match Machine::KNOWN.iter().find(|(_, known)| known == self) {
            Some((name, _)) => write!(out, "{name} Linux"),
            None => write!(out, "processor {} of ELF's list, class {}, byte order {}", self.number, self.class, self.order),
        }
    }
}
