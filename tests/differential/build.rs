//! Links the static libraries of the throttle, of the log writer, of the planner, of the
//! probes and of the cut-down log, whose paths stand in THROTTLE_ARCHIVE, LOG_ARCHIVE,
//! PLAN_ARCHIVE, PROBES_ARCHIVE and CUT_DOWN_ARCHIVE.

use std::path::PathBuf;
use std::{env, fs};

fn main() {
    let directory = PathBuf::from(env::var("OUT_DIR").expect("set by cargo"));
    println!("cargo:rustc-link-search=native={}", directory.display());
    for name in ["throttle", "log", "plan", "probes", "cut_down"] {
        let variable = format!("{}_ARCHIVE", name.to_uppercase());
        println!("cargo:rerun-if-env-changed={variable}");
        let archive = env::var(&variable).unwrap_or_else(|_| panic!("{variable} is not set"));
        println!("cargo:rerun-if-changed={archive}");
        let copy = directory.join(format!("lib{name}.a"));
        fs::copy(&archive, copy).expect("the library can be read");
        println!("cargo:rustc-link-lib=static={name}");
    }
}
