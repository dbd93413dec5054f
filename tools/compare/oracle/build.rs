// Links libopus' static archive, which stands in the folder that the environment names.
fn main() {
    println!("cargo:rerun-if-env-changed=LIBOPUS_FOLDER");
    let folder = std::env::var("LIBOPUS_FOLDER").expect("LIBOPUS_FOLDER names the folder of libopus.a");
    println!("cargo:rustc-link-search=native={folder}");
    println!("cargo:rustc-link-lib=static=opus");
    println!("cargo:rustc-link-lib=m");
}
