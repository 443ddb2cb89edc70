//! Links the static library: that in the folder `HISTAR_LIB`, or that which `./lib` built in the repository, or that of which pkg-config
//! knows. Without it the crate is checked and documented, and does not link.
use std::path::Path;
use std::process::Command;

/// The folder of an installed library, as pkg-config tells it.
fn installed() -> Option<String> {
    let told = Command::new("pkg-config").args(["--variable=libdir", "histar"]).output().ok()?;
    let folder = String::from_utf8(told.stdout).ok()?;
    Some(folder.trim().to_owned()).filter(|folder| !folder.is_empty())
}

/// The folder in which the library should be.
fn folder() -> String {
    let built = format!("{}/../../../out/lib", env!("CARGO_MANIFEST_DIR"));
    if let Ok(told) = std::env::var("HISTAR_LIB") {
        return told;
    }
    if Path::new(&built).join("libhistar.a").exists() {
        return built;
    }
    installed().unwrap_or(built)
}

fn main() {
    println!("cargo:rerun-if-env-changed=HISTAR_LIB");
    println!("cargo:rerun-if-env-changed=PKG_CONFIG_PATH");
    let folder = folder();
    let library = Path::new(&folder).join("libhistar.a");
    println!("cargo:rerun-if-changed={}", library.display());
    if !library.exists() {
        println!("cargo:warning={} is missing: run ./lib at the top of the repository", library.display());
        return;
    }
    println!("cargo:rustc-link-search=native={folder}");
    println!("cargo:rustc-link-lib=static=histar");
}
