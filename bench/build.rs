//! Compiles the response in C.
use std::process::Command;

fn main() {
    println!("cargo::rerun-if-changed=response.c");
    let out = std::env::var("OUT_DIR").expect("cargo sets it");
    let object = format!("{out}/response.o");
    let archive = format!("{out}/libresponse_in_c.a");
    // Products and sums are not contracted: the results are to be the same bits.
    let options = [
        "-std=c99",
        "-O3",
        "-march=native",
        "-ffp-contract=off",
        "-Wall",
        "-Wextra",
        "-c",
        "response.c",
        "-o",
    ];
    run(Command::new("gcc").args(options).arg(&object));
    run(Command::new("ar").args(["rcs", &archive, &object]));
    println!("cargo::rustc-link-search=native={out}");
    println!("cargo::rustc-link-lib=static=response_in_c");
}

fn run(command: &mut Command) {
    assert!(command.status().expect("gcc and ar").success());
}
