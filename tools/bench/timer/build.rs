// Links the port's static library, which stands in the folder that the environment names.
fn main() {
    println!("cargo:rerun-if-env-changed=GURTHAPEN_FOLDER");
    let folder = std::env::var("GURTHAPEN_FOLDER").expect("GURTHAPEN_FOLDER names the folder of libgurthapen.a");
    println!("cargo:rerun-if-changed={folder}/libgurthapen.a");
    println!("cargo:rustc-link-search=native={folder}");
    println!("cargo:rustc-link-lib=static=gurthapen");
}
