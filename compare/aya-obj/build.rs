//! Names the two files of the crate aya-obj 0.3.0. They stand beside the repository, or where AYA_OBJ_SRC says.
use std::{env, fs, path::PathBuf};

fn main() {
    println!("cargo:rerun-if-env-changed=AYA_OBJ_SRC");
    let home = PathBuf::from(env::var("CARGO_MANIFEST_DIR").unwrap());
    let sources = match env::var("AYA_OBJ_SRC") {
        Ok(place) => PathBuf::from(place),
        Err(_) => home.join("../../../shared/docs/src"),
    };
    let mut modules = String::new();
    for (name, file) in [("relocation", "src/relocation.rs"), ("info", "src/btf/info.rs")] {
        let path =
            fs::canonicalize(sources.join(file)).unwrap_or_else(|e| panic!("{}: {e} (set AYA_OBJ_SRC)", sources.join(file).display()));
        println!("cargo:rerun-if-changed={}", path.display());
        let module = format!("#[path = {:?}]\npub mod {name};\n", path.display().to_string());
        let module = if name == "info" { format!("/// BTF records.\npub mod btf {{\n{module}}}\n") } else { module };
        modules.push_str(&module);
    }
    fs::write(PathBuf::from(env::var("OUT_DIR").unwrap()).join("modules.rs"), modules).unwrap();
}
