//! Says where the library for C stands: in the folder of `CF_LIBRARY_DIR`, in the package itself, or where pkg-config says. Else a shared one may stand where the linker
//! looks by itself; a static one is looked for nowhere else. Crates are checked without the library, so where it is missing there is a warning,
//! which says what to do, above the error of what links.
use std::{env, path::Path, process::Command};

fn main() {
    println!("cargo:rerun-if-env-changed=CF_LIBRARY_DIR");
    println!("cargo:rerun-if-env-changed=PKG_CONFIG_PATH");
    let is_shared = env::var_os("CARGO_FEATURE_DYNAMIC").is_some();
    let (kind, file) = if is_shared { ("dylib", "libcf.so") } else { ("static", "libcf.a") };
    let named = env::var("CF_LIBRARY_DIR").ok();
    let folder = named.clone().or_else(carried).or_else(|| said_by_pkg_config("libdir"));
    if let Some(folder) = &folder {
        println!("cargo:rustc-link-search=native={folder}");
        println!("cargo:rerun-if-changed={folder}/{file}");
    }
    if let Some(missing) = missing(file, named.is_some(), folder.as_deref()) {
        println!("cargo:warning={missing}");
    }
    println!("cargo:rustc-link-lib={kind}=cf");
}

/// What is to be done where no library is found in this folder, which the variable names or else pkg-config.
pub(crate) fn missing(file: &str, is_named: bool, folder: Option<&str>) -> Option<String> {
    let looked = match folder {
        Some(folder) if Path::new(folder).join(file).exists() => return None,
        Some(folder) if is_named => format!("CF_LIBRARY_DIR is {folder}, where no {file} stands"),
        Some(folder) => format!("CF_LIBRARY_DIR isn't set, and pkg-config names {folder}, where no {file} stands"),
        None if file.ends_with(".so") => return None,
        None => "CF_LIBRARY_DIR isn't set, and pkg-config knows no cf".to_owned(),
    };
    Some(format!("{looked}: nothing that calls the library will link. `./install --library PREFIX` puts it into PREFIX/lib (docs/C.md); build with CF_LIBRARY_DIR=PREFIX/lib then"))
}

/// The folder of the library that a packaged crate carries for this target, unless a shared one is asked for.
fn carried() -> Option<String> {
    let folder = format!("{}/native/{}", env::var("CARGO_MANIFEST_DIR").ok()?, env::var("TARGET").ok()?);
    (env::var_os("CARGO_FEATURE_DYNAMIC").is_none() && Path::new(&folder).join("libcf.a").exists()).then_some(folder)
}

fn said_by_pkg_config(variable: &str) -> Option<String> {
    let told = Command::new("pkg-config").arg(format!("--variable={variable}")).arg("cf").output().ok()?;
    let text = String::from_utf8(told.stdout).ok()?;
    (told.status.success() && !text.trim().is_empty()).then(|| text.trim().to_owned())
}
