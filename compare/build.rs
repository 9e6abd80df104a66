//! Links the archive that `make lib` builds, and the literal model of fuzz/model.c, which gcc compiles here.
use std::{
    env,
    path::{Path, PathBuf},
    process::Command,
};

fn done(command: &mut Command) {
    let status = command.status().unwrap_or_else(|e| panic!("{command:?}: {e}"));
    assert!(status.success(), "{command:?}: {status}");
}

fn model(fuzz: &Path, include: &Path, out: &Path) {
    let gcc = env::var("GCC").unwrap_or("gcc".to_string());
    let object = out.join("model.o");
    done(
        Command::new(gcc)
            .args(["-std=c11", "-O2", "-fPIC", "-Wall", "-Wextra", "-Werror", "-c", "-I"])
            .arg(include)
            .arg("-o")
            .arg(&object)
            .arg(fuzz.join("model.c")),
    );
    done(Command::new("ar").arg("crs").arg(out.join("libmodel.a")).arg(&object));
    for file in [fuzz.join("model.c"), fuzz.join("model.h"), include.join("barkruffle.h")] {
        println!("cargo:rerun-if-changed={}", file.display());
    }
    println!("cargo:rerun-if-env-changed=GCC");
    println!("cargo:rustc-link-search=native={}", out.display());
    println!("cargo:rustc-link-lib=static=model");
}

fn main() {
    let home = PathBuf::from(env::var("CARGO_MANIFEST_DIR").unwrap());
    model(&home.join("../fuzz"), &home.join("../include"), &PathBuf::from(env::var("OUT_DIR").unwrap()));
    let folder = home.join("../target/staticlib");
    println!("cargo:rerun-if-changed={}", folder.join("libbarkruffle.a").display());
    println!("cargo:rustc-link-search=native={}", folder.display());
    println!("cargo:rustc-link-lib=static=barkruffle");
}
