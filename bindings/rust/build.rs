//! Finds libcedar: in the folder that BOBBINJADE_LIB names, or as `cedar` with pkg-config.
use std::{env, path::Path, process::Command};

fn main() {
    println!("cargo:rerun-if-env-changed=BOBBINJADE_LIB");
    println!("cargo:rerun-if-env-changed=PKG_CONFIG_PATH");
    if let Ok(folder) = env::var("BOBBINJADE_LIB") {
        let is_static = Path::new(&folder).join("libcedar.a").exists();
        println!("cargo:rerun-if-changed={folder}/libcedar.a");
        println!("cargo:rustc-link-search=native={folder}");
        println!("cargo:rustc-link-lib={}=cedar", if is_static { "static" } else { "dylib" });
        return;
    }
    let found = Command::new("pkg-config").args(["--libs", "cedar"]).output();
    let words = match found {
        Ok(output) if output.status.success() => String::from_utf8_lossy(&output.stdout).into_owned(),
        _ => panic!("libcedar is not found: BOBBINJADE_LIB names its folder, or pkg-config knows cedar"),
    };
    for word in split(&words) {
        if let Some(folder) = word.strip_prefix("-L") {
            println!("cargo:rustc-link-search=native={folder}");
        } else if let Some(name) = word.strip_prefix("-l") {
            println!("cargo:rustc-link-lib={name}");
        }
    }
}

/// The words that pkg-config writes: a space with a backslash before it is part of a word.
fn split(line: &str) -> Vec<String> {
    let (mut words, mut is_open, mut letters) = (vec![], false, line.chars());
    while let Some(letter) = letters.next() {
        if letter.is_whitespace() {
            is_open = false;
            continue;
        }
        if !is_open {
            words.push(String::new());
            is_open = true;
        }
        let letter = if letter == '\\' { letters.next().unwrap_or(letter) } else { letter };
        words.last_mut().expect("a word is open").push(letter);
    }
    words
}
