//! Finds `libturn_client.a`, as the crate's page says, and names its folder: to the crate's own
//! tests as `TURN_CLIENT_FOLDER`, and to the build scripts of packages above as
//! `DEP_TURN_CLIENT_INCLUDE`, for the header lies beside the library.

use std::env;
use std::path::{Path, PathBuf};
use std::process::{Command, ExitCode};

const NAME: &str = "turn_client";
/// The library that `bindings/c/try` makes without proofs. It wants the runtime of
/// AddressSanitizer.
const UNPROVED: &str = "turn_client_unproved";
const VARIABLE: &str = "TURN_CLIENT_LIB";
/// The folder of the package that has the library, and what that is compiled for, in cargo's words.
const PACKAGED: &str = "lib/x86_64-linux-gnu";
const PLATFORM: [(&str, &str); 3] = [
    ("CARGO_CFG_TARGET_ARCH", "x86_64"),
    ("CARGO_CFG_TARGET_OS", "linux"),
    ("CARGO_CFG_TARGET_ENV", "gnu"),
];

/// A library: its folder by its whole path, and its name.
struct Library {
    folder: PathBuf,
    name: &'static str,
}

fn archive(name: &str) -> String {
    format!("lib{name}.a")
}

/// The library in a folder, if there is one.
fn library_in(folder: &Path) -> Option<Library> {
    let folder = folder.canonicalize().ok()?;
    let name = [NAME, UNPROVED]
        .into_iter()
        .find(|it| folder.join(archive(it)).is_file())?;
    Some(Library { folder, name })
}

/// The library of the package, if the build is for its platform.
fn packaged() -> Option<Library> {
    let is_its_platform = PLATFORM
        .iter()
        .all(|(name, wanted)| env::var(name).as_deref() == Ok(wanted));
    let package = PathBuf::from(env::var_os("CARGO_MANIFEST_DIR")?);
    is_its_platform.then(|| library_in(&package.join(PACKAGED)))?
}

/// The library that pkg-config names. It knows those of the machine on which it runs.
fn installed() -> Option<Library> {
    if env::var_os("HOST") != env::var_os("TARGET") {
        return None;
    }
    let program = env::var_os("PKG_CONFIG").unwrap_or_else(|| "pkg-config".into());
    let told = Command::new(program)
        .args(["--static", "--libs", NAME])
        .output()
        .ok()?;
    let flags = String::from_utf8(told.stdout).ok()?;
    flags
        .split_whitespace()
        .find_map(|flag| match flag.strip_prefix("-L") {
            Some(folder) => library_in(Path::new(folder)),
            None => library_in(Path::new(flag.strip_suffix(&archive(NAME))?)),
        })
}

fn library() -> Result<Library, String> {
    if let Some(named) = env::var_os(VARIABLE) {
        let folder = PathBuf::from(named);
        return library_in(&folder).ok_or_else(|| {
            format!(
                "there is no {} in {}, which is the folder that {VARIABLE} names",
                archive(NAME),
                folder.display()
            )
        });
    }
    packaged().or_else(installed).ok_or_else(|| {
        let target = env::var("TARGET").unwrap_or_default();
        format!(
            "there is no {} for {target}: {VARIABLE} names no folder, {PACKAGED} in this package \
             is for x86-64 Linux with glibc, and pkg-config knows no {NAME}. In a clone, \
             {PACKAGED} leads to dist/: clone all of it",
            archive(NAME)
        )
    })
}

fn main() -> ExitCode {
    println!("cargo:rerun-if-changed=build.rs");
    for variable in [VARIABLE, "PKG_CONFIG", "PKG_CONFIG_PATH"] {
        println!("cargo:rerun-if-env-changed={variable}");
    }
    let Library { folder, name } = match library() {
        Ok(library) => library,
        Err(why) => {
            eprintln!("turn-client-sys: {why}.");
            return ExitCode::FAILURE;
        }
    };
    let shown = folder.display();
    println!(
        "cargo:rerun-if-changed={}",
        folder.join(archive(name)).display()
    );
    println!("cargo:rustc-env=TURN_CLIENT_FOLDER={shown}");
    println!("cargo:include={shown}");
    println!("cargo:rustc-link-search=native={shown}");
    println!("cargo:rustc-link-lib=static={name}");
    if name == UNPROVED {
        println!("cargo:warning=the library in {shown} is NOT PROVED");
        println!("cargo:rustc-link-lib=dylib=asan");
    }
    ExitCode::SUCCESS
}
