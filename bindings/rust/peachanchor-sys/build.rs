//! Says where the library lies. That is the first of these:
//!
//! 1. `lib` of the folder in `PEACHANCHOR_PREFIX`, which `make install` made;
//! 2. an archive that the C compiler makes here of the assembly: `asm` of a published crate, or `dist` of the repository, also
//!    where cargo took that by git;
//! 3. where pkg-config knows `peachanchor`, or `tlsf`, its name until version 0.5.

use std::path::Path;
use std::process::{exit, Command};
use std::{env, fs};

fn main() {
    println!("cargo:rerun-if-changed=build.rs");
    let takes_malloc = env::var_os("CARGO_FEATURE_MALLOC").is_some();
    let (archive, packages) = if takes_malloc {
        ("peachanchor", ["peachanchor", "tlsf"])
    } else {
        ("peachanchor_nomalloc", ["peachanchor-nomalloc", "tlsf-nomalloc"])
    };
    let folder = if let Some(prefix) = told("PEACHANCHOR_PREFIX") {
        held(&prefix, archive)
    } else if let Some(sources) = sources() {
        assemble(sources, archive, takes_malloc)
    } else {
        println!("cargo:rerun-if-env-changed=PKG_CONFIG_PATH");
        packages.into_iter().find_map(folder_of).unwrap_or_else(|| {
            stop(&format!(
                "set PEACHANCHOR_PREFIX to the folder with lib/lib{archive}.a that `make install` made, or take this crate from its repository"
            ))
        })
    };
    // What was made now is newer than cargo's note of this run, and would be made again each time.
    if folder != said("OUT_DIR") {
        println!("cargo:rerun-if-changed={folder}/lib{archive}.a");
    }
    println!("cargo:rustc-link-search=native={folder}");
    println!("cargo:rustc-link-lib=static={archive}");
    println!("cargo:rustc-env=PEACHANCHOR_ARCHIVE={folder}/lib{archive}.a");
    println!("cargo:rustc-env=PEACHANCHOR_CC={}", compiler());
}

fn stop(why: &str) -> ! {
    eprintln!("peachanchor-sys: {why}");
    exit(1)
}

/// The folder of the archive below a prefix.
fn held(prefix: &str, archive: &str) -> String {
    let file = format!("{prefix}/lib/lib{archive}.a");
    if !Path::new(prefix).is_absolute() || !Path::new(&file).exists() {
        stop(&format!(
            "PEACHANCHOR_PREFIX is {prefix}, and has to be the full path of a folder that `make install` made, with lib/lib{archive}.a"
        ))
    }
    format!("{prefix}/lib")
}

/// A variable of the environment, where it isn't empty.
fn told(name: &str) -> Option<String> {
    println!("cargo:rerun-if-env-changed={name}");
    env::var(name).ok().filter(|it| !it.trim().is_empty())
}

/// What cargo says of this build.
fn said(name: &str) -> String {
    env::var(name).unwrap_or_default()
}

/// A variable for this target: `CC_aarch64-unknown-linux-gnu`, the same with `_` for `-`, `TARGET_CC` (`HOST_CC` where this
/// machine is the target), or `CC`.
fn told_for_target(name: &str) -> Option<String> {
    let target = said("TARGET");
    let whose = if target == said("HOST") { "HOST" } else { "TARGET" };
    let names = [format!("{name}_{target}"), format!("{name}_{}", target.replace('-', "_")), format!("{whose}_{name}")];
    names.iter().find_map(|it| told(it)).or_else(|| told(name))
}

/// The C compiler for this target.
fn compiler() -> String {
    told_for_target("CC").unwrap_or_else(|| "cc".to_owned())
}

/// What the C preprocessor knows where it is for this target, if there is assembly for that.
fn macros() -> Option<String> {
    let (processor, system) = (said("CARGO_CFG_TARGET_ARCH"), said("CARGO_CFG_TARGET_OS"));
    let own = match (processor.as_str(), system.as_str()) {
        ("x86_64", "windows") if said("CARGO_CFG_TARGET_ENV") == "gnu" => "defined(__x86_64__) && defined(_WIN32)",
        ("aarch64", "macos") => "defined(__aarch64__) && defined(__APPLE__)",
        // Without an operating system nobody sets up what the archive keeps for each thread. Others have no files of this form.
        (_, "windows" | "macos" | "none" | "uefi" | "ios" | "tvos" | "watchos" | "visionos" | "cygwin") => return None,
        ("x86_64", _) => "defined(__x86_64__) && defined(__ELF__)",
        ("aarch64", _) => "defined(__aarch64__) && defined(__ELF__)",
        ("riscv64", _) => "defined(__riscv) && defined(__ELF__)",
        _ => return None,
    };
    let fits = said("CARGO_CFG_TARGET_POINTER_WIDTH") == "64" && said("CARGO_CFG_TARGET_ENDIAN") != "big";
    fits.then(|| own.to_owned())
}

/// The folder of the assembly, where there is one.
fn sources() -> Option<&'static str> {
    ["asm", "../../../dist"].into_iter().find(|it| Path::new(it).join("tlsf.S").exists())
}

/// Makes the archive for this target, of the assembly in a folder. Its own folder.
fn assemble(sources: &str, archive: &str, takes_malloc: bool) -> String {
    println!("cargo:rerun-if-changed={sources}");
    let (target, out) = (said("TARGET"), said("OUT_DIR"));
    let own = macros().unwrap_or_else(|| {
        stop(&format!("there is no assembly for {target}; PEACHANCHOR_PREFIX may say where lib/lib{archive}.a is"))
    });
    let told = compiler();
    let flags = told_for_target("CFLAGS").unwrap_or_default();
    let words: Vec<_> = told.split_whitespace().chain(flags.split_whitespace()).collect();
    let wrong = format!("{told} is for another target: set CC_{} to a C compiler", target.replace('-', "_"));
    let source = format!(
        "#if !({own})\n#error \"{wrong} for {target}\"\n#else\n#include \"{}/{sources}/tlsf.S\"\n#endif\n",
        said("CARGO_MANIFEST_DIR").replace('\\', "/")
    );
    let (file, object, to) = (format!("{out}/whole.S"), format!("{out}/tlsf.o"), format!("{out}/lib{archive}.a"));
    fs::write(&file, source).unwrap_or_else(|why| stop(&format!("{file}: {why}")));
    let defined = if takes_malloc { &[][..] } else { &["-DTLSF_NO_MALLOC"] };
    run(
        "the C compiler",
        "CC",
        words[0],
        Command::new(words[0]).args(&words[1..]).args(defined).args(["-c", &file, "-o", &object]),
    );
    let ar = told_for_target("AR").unwrap_or_else(|| archiver(&words));
    let _ = fs::remove_file(&to);
    run("the archiver", "AR", &ar, Command::new(&ar).args(["rcs", &to, &object]));
    out
}

/// The archiver that belongs to a compiler, as this says.
fn archiver(compiler: &[&str]) -> String {
    let told = Command::new(compiler[0]).args(&compiler[1..]).arg("-print-prog-name=ar").output();
    let name = told.ok().and_then(|it| String::from_utf8(it.stdout).ok()).unwrap_or_default();
    if name.trim().is_empty() {
        "ar".to_owned()
    } else {
        name.trim().to_owned()
    }
}

/// Runs a tool, which a variable of the environment names for this target.
fn run(tool: &str, variable: &str, name: &str, command: &mut Command) {
    match command.status() {
        Ok(status) if status.success() => (),
        Ok(_) => stop(&format!("{tool} fails: {command:?}")),
        Err(why) => {
            let own = format!("{variable}_{}", said("TARGET").replace('-', "_"));
            stop(&format!("{tool}, `{name}`, can't be run: {why}; set {own} or {variable} to one"))
        }
    }
}

/// The folder of the archive by pkg-config, or nothing where it doesn't know the package.
fn folder_of(package: &str) -> Option<String> {
    let told = Command::new("pkg-config").args(["--variable=libdir", package]).output().ok()?;
    let folder = String::from_utf8(told.stdout).ok()?.trim().to_owned();
    (told.status.success() && !folder.is_empty()).then_some(folder)
}
