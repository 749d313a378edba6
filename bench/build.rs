//! Links the proved build where PROVED names the folder of crates/bench_calls that has it, and sets `proved`.

fn main() {
    println!("cargo::rustc-check-cfg=cfg(proved)");
    println!("cargo::rerun-if-env-changed=PROVED");
    if let Ok(folder) = std::env::var("PROVED") {
        println!("cargo::rustc-cfg=proved");
        println!("cargo::rustc-link-search=native={folder}");
        println!("cargo::rerun-if-changed={folder}");
    }
}
