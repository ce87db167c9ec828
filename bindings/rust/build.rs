//! Links the static library `p3_fri_ffi`, and the toolchain's C part, through which it reaches
//! `malloc`. It is taken from the folder that `P3_FRI_LIB` names, or from `lib` beside a package
//! that `tools/package` wrote, or, with the feature `build`, proved and built here. `P3_FRI_CPU` says
//! for which processors it is to be.

use std::io::Write;
use std::path::{Path, PathBuf};
use std::process::Command;
use std::{env, fs};

/// What is missing, in one line.
type Missing = String;

/// The library, and the toolchain's C part.
const LIBRARY: &str = "libp3_fri_ffi.a";
const C_PART: &str = "liblibc_c.a";

/// The processors for which a library can be built, and the flags of `rt lib` for each.
const PROCESSORS: [(&str, &[&str]); 2] = [("x86-64-v2", &[]), (NEWER, &["--cpu", NEWER])];

/// The processors with AVX2, the library for which lies in a folder of its own.
const NEWER: &str = "x86-64-v3";

/// Where both libraries lie.
struct Folders {
    library: PathBuf,
    c_part: PathBuf,
}

/// The folder of the toolchain: `RATTLE_KIT`, or the one whose page `rt doc` names.
fn toolchain() -> Result<PathBuf, Missing> {
    if let Some(kit) = env::var_os("RATTLE_KIT") {
        return Ok(PathBuf::from(kit));
    }
    let said = Command::new("rt").arg("doc").output().map_err(|error| {
        format!("`rt`, the toolchain's command, is missing ({error}): put it on PATH")
    })?;
    let page = PathBuf::from(String::from_utf8_lossy(&said.stdout).trim());
    match page.parent() {
        Some(kit) if page.is_file() => Ok(kit.to_path_buf()),
        _ => Err("`rt doc` names no page: set RATTLE_KIT to the toolchain's folder".to_string()),
    }
}

/// A folder with both libraries.
fn built(folder: PathBuf) -> Result<Folders, Missing> {
    for file in [LIBRARY, C_PART] {
        let path = folder.join(file);
        println!("cargo::rerun-if-changed={}", path.display());
        if !path.is_file() {
            return Err(format!("{} is missing", path.display()));
        }
    }
    Ok(Folders { library: folder.clone(), c_part: folder })
}

/// The processors that `P3_FRI_CPU` names, with their flags: the first ones where it isn't set.
fn processors() -> Result<(&'static str, &'static [&'static str]), Missing> {
    println!("cargo::rerun-if-env-changed=P3_FRI_CPU");
    let Some(named) = env::var_os("P3_FRI_CPU") else {
        return Ok(PROCESSORS[0]);
    };
    let known = PROCESSORS.into_iter().find(|(name, _)| named == *name);
    known.ok_or_else(|| {
        format!("P3_FRI_CPU is {}, not x86-64-v2 or x86-64-v3", named.to_string_lossy())
    })
}

/// The part of a folder of built libraries that is for these processors.
fn part_for(folder: PathBuf, processors: &str) -> PathBuf {
    if processors == NEWER {
        folder.join(NEWER)
    } else {
        folder
    }
}

/// Says on the terminal that what follows takes long: cargo shows what a build script prints only
/// once it has ended.
fn announce() {
    let text = "p3-fri-proved: proving and building its library, in a fresh clone some tens of \
                minutes (P3_FRI_LIB names a folder with a built one)";
    if let Ok(mut terminal) = fs::OpenOptions::new().write(true).open("/dev/tty") {
        let _ = writeln!(terminal, "{text}");
    }
    println!("cargo::warning={text}");
}

/// Proves and builds the library, with these flags.
fn prove(repository: &Path, flags: &[&str]) -> Result<Folders, Missing> {
    println!("cargo::rerun-if-env-changed=RATTLE_KIT");
    println!("cargo::rerun-if-changed={}", repository.join("crates.txt").display());
    for part in fs::read_dir(repository.join("crates")).into_iter().flatten().flatten() {
        println!("cargo::rerun-if-changed={}", part.path().join("src").display());
    }
    let kit = toolchain()?;
    let library = repository.join("crates/p3_fri_ffi");
    let rt = env::var_os("RATTLE_KIT").map_or("rt".into(), |kit| PathBuf::from(kit).join("bin/rt"));
    if !library.join("out").join(LIBRARY).is_file() {
        announce();
    }
    let status = Command::new(&rt)
        .arg("lib")
        .args(flags)
        .current_dir(&library)
        .status()
        .map_err(|error| format!("`{}` doesn't start: {error}", rt.display()))?;
    if status.success() {
        Ok(Folders { library: library.join("out"), c_part: kit.join("c") })
    } else {
        Err(format!("`rt lib` failed in {}", library.display()))
    }
}

/// The folders to link from: none where there is no library and none is to be proved.
fn folders(processors: &str, flags: &[&str]) -> Result<Option<Folders>, Missing> {
    println!("cargo::rerun-if-env-changed=P3_FRI_LIB");
    let package = PathBuf::from(env!("CARGO_MANIFEST_DIR"));
    let beside = package.join("../lib");
    if let Some(folder) = env::var_os("P3_FRI_LIB") {
        built(part_for(PathBuf::from(folder), processors)).map(Some)
    } else if beside.join(LIBRARY).is_file() {
        built(part_for(beside, processors)).map(Some)
    } else if env::var_os("CARGO_FEATURE_BUILD").is_some() && env::var_os("DOCS_RS").is_none() {
        prove(&package.join("../.."), flags).map(Some)
    } else {
        Ok(None)
    }
}

/// Says to cargo what to link, and to the package for which processors that is.
fn link(folders: &Folders, processors: &str) {
    println!("cargo::rustc-link-search=native={}", folders.library.display());
    println!("cargo::rustc-link-lib=static=p3_fri_ffi");
    println!("cargo::rustc-link-search=native={}", folders.c_part.display());
    println!("cargo::rustc-link-lib=static=libc_c");
    println!("cargo::rustc-cfg=p3_fri_cpu=\"{processors}\"");
}

fn main() {
    println!("cargo::rustc-check-cfg=cfg(p3_fri_cpu, values(\"x86-64-v2\", \"x86-64-v3\"))");
    // a feature that only the package in rust-serde has
    println!("cargo::rustc-check-cfg=cfg(feature, values(\"serde\"))");
    let found = processors().and_then(|(processors, flags)| {
        Ok(folders(processors, flags)?.map(|folders| (folders, processors)))
    });
    match found {
        Ok(Some((folders, processors))) => link(&folders, processors),
        Ok(None) => println!(
            "cargo::warning=without its library this package can be checked, and not linked: \
             P3_FRI_LIB names a folder with one, and the feature `build` proves one"
        ),
        Err(missing) => println!("cargo::error={missing}"),
    }
}
