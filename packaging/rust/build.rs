//! Finds libbohm.a: in the folder that `BOHM_LIB` names, by pkg-config, or in the repository that contains this folder.
use std::process::{exit, Command};
use std::{env, path::Path, path::PathBuf};

/// The trimmed standard output of a command, if it succeeds.
fn told(command: &mut Command) -> Option<String> {
    let ran = command.output().ok().filter(|ran| ran.status.success())?;
    String::from_utf8(ran.stdout).ok().map(|said| said.trim().to_owned())
}

fn by_pkg_config() -> Option<PathBuf> {
    told(Command::new("pkg-config").args(["--variable=libdir", "bohm"])).map(PathBuf::from)
}

fn in_repository() -> Option<PathBuf> {
    let top = Path::new(&env::var_os("CARGO_MANIFEST_DIR")?).join("../..").canonicalize().ok()?;
    told(Command::new(top.join("scripts/choose")).arg("library")).map(|folder| top.join(folder))
}

/// Ends the build with this error.
fn stop(why: &str) -> ! {
    println!("cargo::error={why}");
    exit(1)
}

fn main() {
    let named = env::var_os("BOHM_LIB").filter(|folder| !folder.is_empty()).map(PathBuf::from);
    let Some(folder) = named.or_else(by_pkg_config).or_else(in_repository) else {
        stop(
            "libbohm.a isn't found: set BOHM_LIB to its folder, or install bohm.pc where pkg-config finds it; \
             in a checkout of its sources, `./prove library` builds it",
        );
    };
    let archive = folder.join("libbohm.a");
    if !archive.is_file() {
        stop(&format!("there is no {}", archive.display()));
    }
    println!("cargo:rustc-link-search=native={}", folder.display());
    println!("cargo:rustc-link-lib=static=bohm");
    println!("cargo:rerun-if-env-changed=BOHM_LIB");
    println!("cargo:rerun-if-env-changed=PKG_CONFIG_PATH");
    println!("cargo:rerun-if-changed={}", archive.display());
}
