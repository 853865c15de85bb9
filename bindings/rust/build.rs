//! Links the archive; `oracle/port` uses this file too, from a folder as deep.

use std::env;
use std::fs::{self, File};
use std::hash::{DefaultHasher, Hash, Hasher};
use std::path::{Path, PathBuf};
use std::time::SystemTime;

/// Names the archive, where it is not the repository's.
const VARIABLE: &str = "ADMEZGAST_ARCHIVE";

fn main() {
    println!("cargo::rerun-if-env-changed={VARIABLE}");
    let found = fits_target().and_then(|()| match env::var_os(VARIABLE) {
        Some(named) if !named.is_empty() => named_archive(PathBuf::from(named)),
        _ => own_archive(),
    });
    match found {
        Ok(archive) => link(&archive),
        Err(reason) => println!("cargo::error={reason}"),
    }
}

/// What Rattle compiles is for one kind of machine.
fn fits_target() -> Result<(), String> {
    let is = |variable: &str, value: &str| env::var(variable).is_ok_and(|found| found == value);
    if is("CARGO_CFG_TARGET_ARCH", "x86_64") && is("CARGO_CFG_TARGET_OS", "linux") {
        return Ok(());
    }
    Err(format!(
        "librecords_box.a is for x86-64 Linux and the target is {}: build for x86_64-unknown-linux-gnu; \
         oracle/README.md of the repository says what that needs on another machine",
        env::var("TARGET").unwrap_or_default()
    ))
}

fn named_archive(archive: PathBuf) -> Result<PathBuf, String> {
    if !archive.is_absolute() || !archive.is_file() {
        return Err(format!(
            "{VARIABLE} is {}, which is not the absolute path of a file",
            archive.display()
        ));
    }
    Ok(archive)
}

/// The archive of the repository that this package stands in, unless one of its sources is newer.
fn own_archive() -> Result<PathBuf, String> {
    // Read now: `env!` would keep the folder of the checkout that compiled this program first.
    let package = PathBuf::from(env::var_os("CARGO_MANIFEST_DIR").expect("cargo sets it"));
    let root = package.join("../..");
    let root = root.canonicalize().unwrap_or(root);
    let archive = root.join("crates/records_box/out/librecords_box.a");
    let Some(made) = changed(&archive) else {
        return Err(format!(
            "{} is not there: run `rt lib` in the repository's crates/records_box, or name the archive in {VARIABLE}",
            archive.display()
        ));
    };
    mark(&root, &archive, made);
    let mut sources = vec![root.join("crates.txt")];
    add_sources(&root.join("crates"), &mut sources);
    for source in sources {
        let Some(time) = changed(&source) else {
            continue;
        };
        println!("cargo::rerun-if-changed={}", source.display());
        if time > made {
            return Err(format!(
                "{} is older than {}: run `rt lib` in the repository's crates/records_box",
                archive.display(),
                source.display()
            ));
        }
    }
    Ok(archive)
}

/// Two checkouts that share a target folder are one package to cargo, and the second would be linked as the first was. A
/// file named after this checkout, which cargo looks for from the package's folder, is missing in the other.
fn mark(root: &Path, archive: &Path, time: SystemTime) {
    let mut hasher = DefaultHasher::new();
    root.hash(&mut hasher);
    let name = format!("linked-{:016x}", hasher.finish());
    let marked =
        File::create(archive.with_file_name(&name)).and_then(|file| file.set_modified(time));
    if marked.is_ok() {
        println!("cargo::rerun-if-changed=../../crates/records_box/out/{name}");
    }
}

/// Every `.rt` file below the folder, if there is one, but what Rattle made of them.
fn add_sources(folder: &Path, sources: &mut Vec<PathBuf>) {
    for entry in fs::read_dir(folder).into_iter().flatten().flatten() {
        let path = entry.path();
        if path.ends_with("out") {
            continue;
        }
        if path.is_dir() {
            add_sources(&path, sources);
        } else if path.extension().is_some_and(|extension| extension == "rt") {
            sources.push(path);
        }
    }
}

fn changed(file: &Path) -> Option<SystemTime> {
    fs::metadata(file).and_then(|data| data.modified()).ok()
}

fn link(archive: &Path) {
    let folder = archive.parent().expect("a file has a folder");
    let name = Path::new(archive.file_name().expect("a file has a name"));
    println!("cargo::rerun-if-changed={}", archive.display());
    println!("cargo::rustc-link-search=native={}", folder.display());
    println!("cargo::rustc-link-lib=static:+verbatim={}", name.display());
    // The tests link it into C programs.
    println!("cargo::rustc-env=RECORDS_BOX={}", archive.display());
}
