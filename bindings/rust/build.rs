//! Links `libx25.a`: of the folder that the variable X25_LIBRARY names, or of `build` in the repository, or where `pkg-config` says.
use std::{env, path::PathBuf, process::Command};

fn main() {
    println!("cargo:rerun-if-env-changed=X25_LIBRARY");
    let built = PathBuf::from(env::var("CARGO_MANIFEST_DIR").unwrap()).join("../../build");
    let folder = match env::var("X25_LIBRARY") {
        Ok(named) => PathBuf::from(named),
        Err(_) if built.join("libx25.a").exists() => built,
        Err(_) => installed().expect("libx25 isn't there: X25_LIBRARY names its folder, and pkg-config knows an installed one"),
    };
    println!(
        "cargo:rerun-if-changed={}",
        folder.join("libx25.a").display()
    );
    println!("cargo:rustc-link-search=native={}", folder.display());
    println!("cargo:rustc-link-lib=static=x25");
}

/// The folder of the library that is installed, if `pkg-config` knows one.
fn installed() -> Option<PathBuf> {
    let done = Command::new("pkg-config")
        .args(["--variable=libdir", "x25"])
        .output()
        .ok()?;
    let folder = String::from_utf8(done.stdout).ok()?;
    done.status.success().then(|| PathBuf::from(folder.trim()))
}
