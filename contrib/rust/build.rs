// GTHOST_DIR is the folder that `./gthost library` left libgthost.a in.
fn main() {
    println!("cargo:rerun-if-env-changed=GTHOST_DIR");
    if let Ok(folder) = std::env::var("GTHOST_DIR") {
        println!("cargo:rustc-link-search=native={folder}");
    }
}
