//! Finds librtnlc: in the folder that RTNLC_LIB_DIR names, or by pkg-config, or else makes it of the
//! clone of rtnl around this crate, which with the feature `vendored` is all that is tried.
//! RTNLC_STATIC=1 links librtnlc.a, so that the program runs where the library isn't installed; what
//! is made here is linked so. Scripts of crates above are told the folder of the library as
//! DEP_RTNLC_ROOT, and that of its header, where it is known, as DEP_RTNLC_INCLUDE.

use std::env;
use std::path::Path;
use std::process::{exit, Command};

/// The versions that fit these declarations.
const WANTED: [&str; 2] = ["rtnlc >= 0.3", "rtnlc < 0.4"];

/// What makes the library, in a clone, and the folder of its header.
const CLONE: [&str; 2] = ["../../../c/build.sh", "../../../include"];

const INSTALL: &str = "\
librtnlc 0.3 and its header are needed, and weren't found. To install them:
  ./install --library PREFIX   in a clone of rtnl; or
  apt-get install ./librtnlc0_0.3.0_amd64.deb ./librtnlc-dev_0.3.0_amd64.deb
Then PKG_CONFIG_PATH=PREFIX/lib/pkgconfig says where they are; or, without pkg-config,
RTNLC_LIB_DIR=PREFIX/lib names the folder of librtnlc.so, or of librtnlc.a with RTNLC_STATIC=1.";

fn fail(why: &str) -> ! {
    eprintln!("{why}\n\n{INSTALL}");
    exit(1)
}

/// Where the library is, and its header, and how it is linked.
struct Found {
    library: String,
    header: Option<String>,
    is_static: bool,
}

/// The folders of the library, as pkg-config knows them, or why it knows none.
fn by_pkg_config(is_static: bool) -> Result<Found, String> {
    let program = env::var_os("PKG_CONFIG").unwrap_or_else(|| "pkg-config".into());
    let run = |arguments: &[&str]| match Command::new(&program).args(arguments).output() {
        Ok(output) if output.status.success() => {
            Ok(String::from_utf8_lossy(&output.stdout).trim().to_string())
        }
        Ok(output) => Err(String::from_utf8_lossy(&output.stderr).trim().to_string()),
        Err(error) => Err(format!("pkg-config: {error}")),
    };
    run(&["--print-errors", "--exists", WANTED[0], WANTED[1]])?;
    let library = run(&["--variable=libdir", "rtnlc"])?;
    Ok(Found { library, header: run(&["--variable=includedir", "rtnlc"]).ok(), is_static })
}

/// The library of a folder that is named, which is of a version that fits.
fn of_folder(library: String, is_static: bool) -> Result<Found, String> {
    let path = format!("{library}/librtnlc.{}", if is_static { "a" } else { "so" });
    let code = std::fs::read(&path).map_err(|error| format!("{path}: {error}"))?;
    // Behind its version it says whether it is proved.
    let mark = b"\0librtnlc is ";
    let end = code.windows(mark.len()).position(|it| it == mark).unwrap_or(0);
    let begin = code[..end].iter().rposition(|it| *it == 0).map_or(0, |it| it + 1);
    match String::from_utf8_lossy(&code[begin..end]) {
        version if version.starts_with("0.3.") => Ok(Found { library, header: None, is_static }),
        version => Err(format!("{path} is of another version: '{version}'")),
    }
}

/// The library that the clone makes.
fn of_clone() -> Result<Found, String> {
    let here = env::var("CARGO_MANIFEST_DIR").unwrap_or_default();
    let [script, header] = CLONE.map(|it| format!("{here}/{it}"));
    if !Path::new(&script).is_file() {
        return Err("no clone of rtnl is around this crate".to_string());
    }
    let library = format!("{}/rtnlc", env::var("OUT_DIR").unwrap_or_default());
    for it in ["c", "include", "crates", "crates.txt"] {
        println!("cargo:rerun-if-changed={here}/../../../{it}");
    }
    match Command::new(&script).arg(&library).output() {
        Ok(output) if output.status.success() => {
            Ok(Found { library, header: Some(header), is_static: true })
        }
        Ok(output) => {
            let said = String::from_utf8_lossy(&output.stderr);
            Err(format!("the clone made no library: {}", said.trim().lines().last().unwrap_or("")))
        }
        Err(error) => Err(format!("{script}: {error}")),
    }
}

/// Ends where there is no library for the target, or not in the places of this machine.
fn stop_on_target() {
    let of = |name: &str| env::var(format!("CARGO_CFG_TARGET_{name}")).unwrap_or_default();
    if of("OS") != "linux" || of("ENDIAN") != "little" || of("POINTER_WIDTH") != "64" {
        let target = env::var("TARGET").unwrap_or_default();
        fail(&format!(
            "librtnlc is for Linux on 64 bits, lowest byte first, and not for {target}"
        ));
    }
    if env::var("TARGET") != env::var("HOST") && of("ARCH") != env::consts::ARCH {
        fail("for another machine than this, RTNLC_LIB_DIR names the folder of its library");
    }
}

fn find(is_static: bool) -> Found {
    if let Ok(library) = env::var("RTNLC_LIB_DIR") {
        return of_folder(library, is_static).unwrap_or_else(|why| fail(&why));
    }
    stop_on_target();
    if env::var_os("CARGO_FEATURE_VENDORED").is_some() {
        return of_clone().unwrap_or_else(|why| fail(&why));
    }
    by_pkg_config(is_static)
        .or_else(|why| of_clone().map_err(|other| format!("{why}\n{other}")))
        .unwrap_or_else(|why| fail(&why))
}

fn main() {
    println!("cargo:rerun-if-changed=build.rs");
    for name in ["RTNLC_LIB_DIR", "RTNLC_STATIC", "PKG_CONFIG", "PKG_CONFIG_PATH", "DOCS_RS"] {
        println!("cargo:rerun-if-env-changed={name}");
    }
    if env::var_os("DOCS_RS").is_some() {
        return;
    }
    let found = find(env::var("RTNLC_STATIC").map_or(false, |it| it == "1"));
    println!("cargo:rustc-link-search=native={}", found.library);
    println!("cargo:rustc-link-lib={}=rtnlc", if found.is_static { "static" } else { "dylib" });
    println!("cargo:root={}", found.library);
    if let Some(header) = found.header {
        println!("cargo:include={header}");
    }
}
