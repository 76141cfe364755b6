// Compiles the caller in C.
use std::env;
use std::process::Command;

fn main() {
    println!("cargo:rerun-if-changed=src/forecasts.c");
    println!("cargo:rerun-if-changed=../../include/lesmutka.h");
    let folder = env::var("OUT_DIR").expect("a folder from cargo");
    let object = folder.clone() + "/forecasts.o";
    let archive = folder.clone() + "/libforecasts.a";
    let flags = [
        "-std=c99",
        "-Wall",
        "-Wextra",
        "-Werror",
        "-O2",
        "-fPIC",
        "-I../../include",
    ];
    run("cc", &[&flags[..], &["-c", "src/forecasts.c", "-o", &object]].concat());
    run("ar", &["crs", &archive, &object]);
    println!("cargo:rustc-link-search=native={}", folder);
    println!("cargo:rustc-link-lib=static=forecasts");
}

fn run(program: &str, words: &[&str]) {
    let status = Command::new(program).args(words).status().expect(program);
    assert!(status.success(), "{} failed", program);
}
