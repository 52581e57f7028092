//! Links the proved static libraries, the first and, with the feature `player`, the loop player's: those in the folder that
//! `BPG_LIBRARY_DIR` names, or else the repository's own, which `../build` makes again whenever a crate changed.

use std::env;
use std::fs::File;
use std::path::{Path, PathBuf};
use std::process::{exit, Command, Stdio};
use std::time::Instant;

const FOLDER: &str = "BPG_LIBRARY_DIR";

/// What `../build` calls a library, and its archive as `./install` and as `../build` name it.
struct Library {
    name: &'static str,
    installed: &'static str,
    made: &'static str,
}

const FIRST: Library = Library {
    name: "library",
    installed: "libbpg.a",
    made: "libbpg_export.a",
};

const PLAYER: Library = Library {
    name: "player",
    installed: "libloop_player.a",
    made: "libloop_player_export.a",
};

fn main() {
    println!("cargo:rerun-if-changed=build.rs");
    println!("cargo:rerun-if-env-changed={FOLDER}");
    check_target();
    link(&FIRST);
    if env::var_os("CARGO_FEATURE_PLAYER").is_some() {
        link(&PLAYER);
    }
}

fn link(library: &Library) {
    let archive = match env::var_os(FOLDER) {
        Some(folder) => named(library, Path::new(&folder)),
        None => own(library),
    };
    println!("cargo:rerun-if-changed={}", archive.display());
    let folder = archive.parent().expect("an archive stands in a folder");
    let name = archive.file_stem().expect("an archive has a name");
    let name = name.to_string_lossy();
    println!("cargo:rustc-link-search=native={}", folder.display());
    println!("cargo:rustc-link-lib=static={}", &name["lib".len()..]);
}

/// The library is compiled code for one kind of machine.
fn check_target() {
    let [arch, os] = ["CARGO_CFG_TARGET_ARCH", "CARGO_CFG_TARGET_OS"].map(variable);
    if (arch.as_str(), os.as_str()) != ("x86_64", "linux") {
        panic!(
            "the proved library is compiled for x86-64 Linux alone, and the target is {arch} {os}"
        );
    }
}

/// Ends the build with a line that cargo shows.
fn fail(reason: &str) -> ! {
    println!("cargo::error={reason}");
    exit(1)
}

fn variable(name: &str) -> String {
    env::var(name).unwrap_or_else(|_| panic!("cargo sets {name}"))
}

/// A library that was made elsewhere, as `./install` or `../build` names it.
fn named(library: &Library, folder: &Path) -> PathBuf {
    let [installed, made] = [library.installed, library.made];
    let archives = [installed, made].map(|name| folder.join(name));
    let found = archives.into_iter().find(|archive| archive.exists());
    found.unwrap_or_else(|| {
        let folder = folder.display();
        fail(&format!(
            "{FOLDER} names {folder}, which has neither {installed} nor {made}"
        ))
    })
}

/// The repository's library, made where it is missing or older than the crates.
fn own(library: &Library) -> PathBuf {
    let package = PathBuf::from(variable("CARGO_MANIFEST_DIR"));
    let root = package.parent().unwrap_or(&package);
    let [crates, list] = ["crates", "crates.txt"].map(|name| root.join(name));
    if !list.exists() {
        fail(&format!("this package stands outside its repository: {FOLDER} must name the folder of a library that was made there"));
    }
    println!("cargo:rerun-if-changed={}", list.display());
    for source in sources(&crates) {
        println!("cargo:rerun-if-changed={}", source.display());
    }
    let archive = root.join("target/staticlib").join(library.made);
    let before = modified(&archive);
    let start = Instant::now();
    make(library.name, root);
    if modified(&archive) != before {
        let seconds = start.elapsed().as_secs();
        let made = library.made;
        println!("cargo:warning=the proved static library {made} was not there or older than the crates: made again in {seconds} s");
    }
    archive
}

/// The folders that the crates are made of. Beside them stands `out/`, which each check changes.
fn sources(crates: &Path) -> Vec<PathBuf> {
    let found = crates.read_dir().into_iter().flatten().flatten();
    let parts = found.flat_map(|it| ["src", "specs", "proofs"].map(|part| it.path().join(part)));
    parts.filter(|part| part.exists()).collect()
}

fn modified(archive: &Path) -> Option<std::time::SystemTime> {
    archive.metadata().and_then(|data| data.modified()).ok()
}

/// Cargo shows what a build script says only when it has ended, and this may take minutes: so its progress goes to the
/// terminal itself, where there is one.
fn make(name: &str, root: &Path) {
    let terminal = File::options().write(true).open("/dev/tty");
    let progress = terminal.map_or_else(|_| Stdio::inherit(), Stdio::from);
    let status = Command::new(root.join("build"))
        .arg(name)
        .stderr(progress)
        // Cargo reads this program's own output as instructions.
        .stdout(std::io::stderr())
        .status();
    match status {
        Ok(status) if status.success() => {}
        Ok(_) => fail(&format!(
            "the proved library could not be made by `./build {name}`, which the Rattle toolchain (`rt`) is needed for; {FOLDER} can name the folder of one made elsewhere"
        )),
        Err(error) => fail(&format!("`./build {name}` could not be started: {error}")),
    }
}
