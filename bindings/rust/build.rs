//! Links `libteddertempo.a`: from the folder that `TEDDERTEMPO_LIB` names, or where `pkg-config` finds it.

use std::env;
use std::path::Path;
use std::process::{exit, Command};

/// The folders and libraries that `pkg-config` names for the linker, if they are of this crate's version.
fn ask_pkg_config() -> Result<String, String> {
    let program = env::var("PKG_CONFIG").unwrap_or_else(|_| "pkg-config".into());
    let wanted = concat!("teddertempo = ", env!("CARGO_PKG_VERSION"));
    let output = Command::new(&program)
        .args(["--libs", wanted])
        .output()
        .map_err(|e| format!("{program}: {e}"))?;
    if output.status.success() {
        Ok(String::from_utf8_lossy(&output.stdout).into_owned())
    } else {
        let message = String::from_utf8_lossy(&output.stderr);
        Err(message.split_whitespace().collect::<Vec<_>>().join(" "))
    }
}

/// Says why nothing is built.
fn fail(message: &str) -> ! {
    eprintln!("{message}");
    exit(1)
}

fn main() {
    for variable in ["TEDDERTEMPO_LIB", "PKG_CONFIG", "PKG_CONFIG_PATH"] {
        println!("cargo:rerun-if-env-changed={variable}");
    }
    if let Ok(folder) = env::var("TEDDERTEMPO_LIB") {
        println!("cargo:rerun-if-changed={folder}/libteddertempo.a");
        if !Path::new(&folder).join("libteddertempo.a").is_file() {
            fail(&format!(
                "TEDDERTEMPO_LIB is {folder}, and there is no {folder}/libteddertempo.a"
            ));
        }
        println!("cargo:rustc-link-search=native={folder}");
        println!("cargo:rustc-link-lib=static=teddertempo");
        return;
    }
    match ask_pkg_config() {
        Ok(words) => {
            for folder in words
                .split_whitespace()
                .filter_map(|w| w.strip_prefix("-L"))
            {
                println!("cargo:rustc-link-search=native={folder}");
            }
            println!("cargo:rustc-link-lib=teddertempo");
        }
        Err(message) => fail(&format!(
            "libteddertempo.a isn't found: set TEDDERTEMPO_LIB to its folder, or install Teddertempo's package, or set \
             PKG_CONFIG_PATH to the folder of teddertempo.pc ({message})"
        )),
    }
}
