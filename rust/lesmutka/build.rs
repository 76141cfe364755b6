// Finds liblesmutka.a: in the folder that LESMUTKA_LIB_DIR names, or where `./lesmutka --build`
// writes it in this repository. Without the archive everything works but linking, so that the crate
// can be checked, documented and packaged on its own.
use std::env;
use std::path::{Path, PathBuf};
use std::process::{exit, Command};

fn main() {
    println!("cargo:rerun-if-changed=build.rs");
    refuse_other_targets();
    error_trait();
    link();
}

/// The archive is of machine code for one target.
fn refuse_other_targets() {
    let is = |name: &str, value: &str| env::var(name).as_deref() == Ok(value);
    // The width tells the x32 ABI apart, whose size_t has 32 bits.
    let taken = is("CARGO_CFG_TARGET_ARCH", "x86_64")
        && is("CARGO_CFG_TARGET_OS", "linux")
        && is("CARGO_CFG_TARGET_POINTER_WIDTH", "64");
    if !taken {
        let target = env::var("TARGET").unwrap_or_default();
        eprintln!(
            "liblesmutka.a is for 64-bit x86-64 Linux alone, so it cannot be linked for {}.",
            target
        );
        exit(1);
    }
}

/// Sets `lesmutka_core_error` where core has the trait `Error`: from Rust 1.81 on.
fn error_trait() {
    let version = rustc_version().unwrap_or((1, 0));
    // An older cargo does not know this line, and says so.
    if version >= (1, 80) {
        println!("cargo:rustc-check-cfg=cfg(lesmutka_core_error)");
    }
    if version >= (1, 81) {
        println!("cargo:rustc-cfg=lesmutka_core_error");
    }
}

/// The first two numbers of a line like `rustc 1.63.0`.
fn rustc_version() -> Option<(u32, u32)> {
    let answer = Command::new(env::var_os("RUSTC")?).arg("--version").output().ok()?;
    let line = String::from_utf8(answer.stdout).ok()?;
    let mut numbers = line.strip_prefix("rustc ")?.split('.');
    Some((numbers.next()?.parse().ok()?, numbers.next()?.parse().ok()?))
}

fn link() {
    println!("cargo:rerun-if-env-changed=LESMUTKA_LIB_DIR");
    let folders = folders();
    let archive = |folder: &PathBuf| folder.join("liblesmutka.a");
    match folders.iter().find(|folder| archive(folder).is_file()) {
        Some(folder) => {
            println!("cargo:rerun-if-changed={}", archive(folder).display());
            println!("cargo:rustc-link-search=native={}", folder.display());
            println!("cargo:rustc-link-lib=static=lesmutka");
        }
        None => {
            let looked: Vec<String> = folders.iter().map(|f| archive(f).display().to_string()).collect();
            for path in &looked {
                println!("cargo:rerun-if-changed={}", path);
            }
            println!(
                "cargo:warning=there is no {}, so nothing can be linked: run `./lesmutka --build` at the top of \
                 the repository, or set LESMUTKA_LIB_DIR",
                looked.join(" and no ")
            );
        }
    }
}

/// Where the archive may be, as full paths; the first that holds it wins.
fn folders() -> Vec<PathBuf> {
    let package = env::current_dir().unwrap_or_default();
    let named = match env::var_os("LESMUTKA_LIB_DIR") {
        Some(folder) if !folder.is_empty() => PathBuf::from(folder),
        _ => {
            // In this repository the package's folder is rust/lesmutka.
            let top = package.ancestors().nth(2).unwrap_or_else(|| Path::new("/"));
            return vec![top.join("target/staticlib")];
        }
    };
    if named.is_absolute() {
        return vec![named];
    }
    // Cargo runs this in the package's folder and does not say where it was run itself. The shell
    // did, in PWD.
    println!("cargo:rerun-if-env-changed=PWD");
    let mut folders = Vec::new();
    if let Some(caller) = env::var_os("PWD").map(PathBuf::from) {
        if caller.is_absolute() {
            folders.push(caller.join(&named));
        }
    }
    let own = package.join(&named);
    if !folders.contains(&own) {
        folders.push(own);
    }
    folders
}
