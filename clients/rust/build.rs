// Where the static libraries are: in the folder that TRIGGER_LIB names; else, for calls by value,
// where `./build` puts them, and for calls by pointers where `clients/firmware/make` does.
use std::env;
use std::path::PathBuf;

/// The name that clients/firmware/make has for the processor.
fn processor() -> &'static str {
    match env::var("CARGO_CFG_TARGET_ARCH").as_deref() {
        Ok("arm") => "thumbv7em",
        Ok("riscv32") => "riscv32",
        Ok("aarch64") => "aarch64",
        _ => "x86-64",
    }
}

fn built() -> PathBuf {
    let target =
        PathBuf::from(env::var("CARGO_MANIFEST_DIR").expect("set by cargo")).join("../../target");
    let by_pointers = env::var_os("CARGO_FEATURE_POINTERS").is_some() || processor() != "x86-64";
    if by_pointers {
        target.join("firmware").join(processor()).join("lib")
    } else {
        target.join("staticlib")
    }
}

fn main() {
    let folder = env::var("TRIGGER_LIB").map_or_else(|_| built(), PathBuf::from);
    println!("cargo:rerun-if-env-changed=TRIGGER_LIB");
    for library in ["libtrigger.a", "librack.a"] {
        println!("cargo:rerun-if-changed={}", folder.join(library).display());
    }
    println!("cargo:rustc-link-search=native={}", folder.display());
}
