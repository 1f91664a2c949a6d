// Finds the proved library and links it. It comes from the first of these that is there:
// 1. the directory that DRASUMIRA_LIB_DIR names, with libdrasumira.a and libdrasumira.txt of a package in it;
// 2. the repository around this package: oracle/link/library has `rt` prove what is not yet proved. A first build takes the time of the proof, a
//    later one starts at once. That is the archive of the static library host_c, for x86-64 Linux, for which alone the kit compiles;
// 3. lib/ of this package, where ./package has put the archive.
// Only 2 runs `rt`. Without any of them, for another machine, or where a table or the archive is damaged, the build ends with what to do.
mod sum;

use std::fs::read;
use std::path::{Path, PathBuf};
use std::process::{Command, exit};

const ARCHIVE: &str = "libdrasumira.a";
// what ./package wrote about it, a line for each: drasumira VERSION, machine, proved, kind, sha256
const ABOUT: &str = "libdrasumira.txt";
const NAMED: &str = "DRASUMIRA_LIB_DIR";
const SHIPS_FOR: &str = "x86_64";

// Ends the build with these words, on a line that cargo shows.
fn stop(words: &str) -> ! {
    println!("cargo::error=drasumira: {words}");
    eprintln!("drasumira: {words}");
    exit(1)
}

fn set(name: &str) -> String {
    std::env::var(name).unwrap_or_else(|_| stop(&format!("{name} is not set: this is a build script of cargo")))
}

fn rerun_if_changed(path: &Path) {
    println!("cargo::rerun-if-changed={}", path.display());
}

fn write(path: &Path, bytes: impl AsRef<[u8]>) {
    std::fs::write(path, bytes).unwrap_or_else(|e| stop(&format!("{}: {e}", path.display())));
}

// The package that has the archive for this build.
fn package() -> String {
    format!("drasumira-{}-{}.tar.gz", set("CARGO_PKG_VERSION"), set("CARGO_CFG_TARGET_ARCH"))
}

// Runs it, and answers what it wrote.
fn run(command: &mut Command) -> Vec<u8> {
    let said = match command.output() {
        Ok(said) => said,
        Err(e) => stop(&format!(
            "{command:?}: {e}. In the repository the Rattle kit must be on the path, whose `rt` proves and builds the library; or name in {NAMED} the lib/ of an unpacked {}",
            package()
        )),
    };
    if !said.status.success() {
        let words = |bytes: &[u8]| String::from_utf8_lossy(bytes).into_owned();
        eprint!("{}{}", words(&said.stdout), words(&said.stderr));
        stop(&format!("{command:?} failed ({}); what it said stands above", said.status));
    }
    said.stdout
}

fn check_target() {
    let (width, ends) = (set("CARGO_CFG_TARGET_POINTER_WIDTH"), set("CARGO_CFG_TARGET_ENDIAN"));
    if set("CARGO_CFG_TARGET_OS") != "linux" || width != "64" || ends != "little" {
        let target = set("TARGET");
        stop(&format!("there is no library for {target}: it is built for little-endian 64-bit Linux, and ships for x86-64"));
    }
}

// The tables that the package carries, held to their sums. What else stands in a list is for other readers.
fn check_tables(here: &Path) {
    let tables = here.join("tables");
    for list in ["classes.sha256", "pairs.sha256", "languages.sha256", "pages.sha256", "compact.sha256"] {
        let again = "unpack the package again, or in the repository restore tables/";
        let path = tables.join(list);
        let Ok(lines) = std::fs::read_to_string(&path) else { stop(&format!("{} is missing: {again}", path.display())) };
        rerun_if_changed(&path);
        for (sum, name) in lines.lines().filter_map(|line| line.split_once("  ")) {
            if !name.ends_with(".bin") && name != "languages.txt" {
                continue;
            }
            let file = tables.join(name);
            rerun_if_changed(&file);
            let Ok(bytes) = read(&file) else { stop(&format!("{} is missing: {again}", file.display())) };
            if sum::sha256(&bytes) != sum {
                stop(&format!("{} is damaged, its sum is not the one in tables/{list}: {again}", file.display()));
            }
        }
    }
}

// The processor of the first ELF object in an archive.
fn machine_of(archive: &[u8]) -> Option<String> {
    let mut rest = archive.strip_prefix(b"!<arch>\n")?;
    while rest.len() >= 60 {
        let size: usize = std::str::from_utf8(&rest[48..58]).ok()?.trim_end().parse().ok()?;
        let body = rest.get(60..60 + size)?;
        if body.starts_with(b"\x7fELF") {
            return Some(match u16::from_le_bytes([*body.get(18)?, *body.get(19)?]) {
                62 => "x86_64".into(),
                183 => "aarch64".into(),
                number => format!("machine {number} of ELF"),
            });
        }
        rest = rest.get(60 + size.next_multiple_of(2)..)?;
    }
    None
}

// The archive of a package in this directory, with who proved it.
fn packaged(dir: &Path) -> (Vec<u8>, String) {
    let (path, about) = (dir.join(ARCHIVE), dir.join(ABOUT));
    let (arch, version, wanted) = (set("CARGO_CFG_TARGET_ARCH"), set("CARGO_PKG_VERSION"), package());
    let other = format!("take lib/ of {wanted}, whole, or name the directory of its {ARCHIVE} in {NAMED}");
    rerun_if_changed(&path);
    rerun_if_changed(&about);
    let Ok(archive) = read(&path) else { stop(&format!("there is no library to link, {} is missing: {other}", path.display())) };
    let shown = path.display();
    match machine_of(&archive) {
        None => stop(&format!("{shown} is no archive of objects: {other}")),
        Some(machine) if machine != arch => stop(&format!("{shown} is for {machine}, and this build is for {arch}: {other}")),
        Some(_) => {}
    }
    let Ok(said) = std::fs::read_to_string(&about) else {
        stop(&format!("{}, which says what the archive is, is missing: {other}", about.display()))
    };
    let line = |word: &str| said.lines().find_map(|line| line.strip_prefix(word)).map_or("", str::trim);
    if line("drasumira ") != version {
        // the layouts of answers change with versions: an older archive would be linked without a word
        stop(&format!("{shown} is of version '{}', and this package is {version}: {other}", line("drasumira ")));
    }
    if line("sha256 ") != sum::sha256(&archive) {
        stop(&format!("{shown} is damaged, its sum is not the one in {ABOUT}: {other}"));
    }
    if arch != SHIPS_FOR {
        println!("cargo::warning=this machine is not x86-64: what is linked is {}", line("kind "));
    }
    (archive, line("proved ").to_string())
}

// The library of the repository, proved and built.
fn proved(root: &Path) -> (Vec<u8>, String) {
    for file in ["crates.txt", "oracle/link/library"] {
        rerun_if_changed(&root.join(file));
    }
    // and not what rt keeps beside them in out/
    for folder in std::fs::read_dir(root.join("crates")).into_iter().flatten().flatten() {
        for part in ["src", "specs", "proofs"] {
            let path = folder.path().join(part);
            if path.is_dir() {
                rerun_if_changed(&path);
            }
        }
    }
    println!("cargo::rerun-if-env-changed=PATH");
    if set("CARGO_CFG_TARGET_ARCH") != SHIPS_FOR {
        stop(&format!("there is no library for {}: the kit compiles for x86-64", set("TARGET")));
    }
    let proof = run(Command::new("rt").arg("version"));
    run(&mut Command::new(root.join("oracle/link/library")));
    let made = root.join("build/library/libhost.a");
    let archive = read(&made).unwrap_or_else(|e| stop(&format!("{}, which oracle/link/library makes: {e}", made.display())));
    (archive, String::from_utf8_lossy(&proof).trim_end().to_string())
}

fn main() {
    let (here, out) = (PathBuf::from(set("CARGO_MANIFEST_DIR")), PathBuf::from(set("OUT_DIR")));
    println!("cargo::rerun-if-env-changed={NAMED}");
    check_target();
    check_tables(&here);
    let repository = here.parent().filter(|root| root.join("crates.txt").exists() && root.join("crates/host/src/lib.rt").exists());
    let named = std::env::var_os(NAMED).filter(|dir| !dir.is_empty()).map(PathBuf::from);
    let (archive, proof) = match (named, repository) {
        // this script runs in its own folder, and not where cargo was called
        (Some(dir), _) if !dir.is_absolute() => stop(&format!("{NAMED} must be an absolute path, and is '{}'", dir.display())),
        (Some(dir), _) => packaged(&dir),
        (None, Some(root)) => proved(root),
        (None, None) => packaged(&here.join("lib")),
    };
    // copied, under the name that the crate links it by
    write(&out.join("libdrasumira_host.a"), archive);
    // the kit and the logic by which the library is proved, for `drasumira --version`
    write(&out.join("proof.txt"), proof);
    println!("cargo::rustc-link-search=native={}", out.display());
    println!("cargo::rustc-link-lib=static=drasumira_host");
}
