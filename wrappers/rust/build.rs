//! Finds libmedia_box.a: in the folder MEDIA_BOX_LIB, or as pkg-config says.

use std::env;
use std::process::Command;

fn asked_of_pkg_config() -> Option<String> {
    let words = ["--variable=libdir", "media_box"];
    let answer = Command::new("pkg-config").args(words).output().ok()?;
    let folder = String::from_utf8(answer.stdout).ok()?;
    (answer.status.success()).then(|| folder.trim().to_owned())
}

fn main() {
    println!("cargo:rerun-if-env-changed=MEDIA_BOX_LIB");
    println!("cargo:rerun-if-env-changed=PKG_CONFIG_PATH");
    if let Some(folder) = env::var("MEDIA_BOX_LIB").ok().or_else(asked_of_pkg_config) {
        println!("cargo:rustc-link-search=native={folder}");
    }
    println!("cargo:rustc-link-lib=static=media_box");
}
