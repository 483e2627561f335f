//! Links `libbasinmug.a` from the folder of BASINMUG_LIB_DIR, or else from where pkg-config finds it.
use std::env;
use std::path::{Path, PathBuf};
use std::process::{exit, Command};

const NAME: &str = "BASINMUG_LIB_DIR";

fn main() {
    println!("cargo:rerun-if-env-changed={NAME}");
    println!("cargo:rerun-if-env-changed=PKG_CONFIG_PATH");
    let folder = match env::var_os(NAME) {
        Some(folder) => PathBuf::from(folder),
        None => by_pkg_config(),
    };
    let file = folder.join("libbasinmug.a");
    if !file.is_file() {
        stop(&format!("there is no {}", file.display()));
    }
    println!("cargo:rerun-if-changed={}", file.display());
    println!("cargo:rustc-link-search=native={}", folder.display());
    println!("cargo:rustc-link-lib=static=basinmug");
}

/// The folder of the library of this very version.
fn by_pkg_config() -> PathBuf {
    let module = concat!("basinmug = ", env!("CARGO_PKG_VERSION"));
    let program = env::var_os("PKG_CONFIG").unwrap_or_else(|| "pkg-config".into());
    match Command::new(&program)
        .args(["--print-errors", "--variable=libdir", module])
        .output()
    {
        Ok(ran) if ran.status.success() => {
            Path::new(String::from_utf8_lossy(&ran.stdout).trim_end()).to_path_buf()
        }
        Ok(ran) => stop(String::from_utf8_lossy(&ran.stderr).trim_end()),
        Err(error) => stop(&format!("{}: {error}", Path::new(&program).display())),
    }
}

fn stop(why: &str) -> ! {
    eprintln!("libbasinmug.a is not found: {why}. {NAME} may name its folder.");
    exit(1)
}
