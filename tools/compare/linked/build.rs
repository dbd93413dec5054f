// Links the port's static library, which stands in the folder that the environment names, and marks the kinds of which it has every call, so that a
// library from before a kind was exported can still be compared in all others.
const KINDS: [(&str, &[&str]); 5] = [
    ("has_energies", &["gurthapen_unquant_coarse_energy", "gurthapen_unquant_energy_finalise"]),
    ("has_shapes", &["gurthapen_alg_unquant"]),
    ("has_record", &["gurthapen_record_fresh", "gurthapen_record_order", "gurthapen_record_frame", "gurthapen_record_save", "gurthapen_record_restore"]),
    ("has_listing", &["gurthapen_list"]),
    ("has_trip", &["gurthapen_round_trip"]),
];

fn main() {
    println!("cargo:rerun-if-env-changed=GURTHAPEN_FOLDER");
    let folder = std::env::var("GURTHAPEN_FOLDER").expect("GURTHAPEN_FOLDER names the folder of libgurthapen.a");
    let archive = format!("{folder}/libgurthapen.a");
    println!("cargo:rerun-if-changed={archive}");
    println!("cargo:rustc-link-search=native={folder}");
    println!("cargo:rustc-link-lib=static=gurthapen");
    let bytes = std::fs::read(&archive).unwrap_or_else(|e| panic!("{archive}: {e}"));
    // The archive's index has the names one after the other, each with a zero byte at its end.
    let has = |name: &&str| bytes.windows(name.len() + 1).any(|w| w[..name.len()] == *name.as_bytes() && w[name.len()] == 0);
    for (mark, names) in KINDS {
        println!("cargo:rustc-check-cfg=cfg({mark})");
        if names.iter().all(has) {
            println!("cargo:rustc-cfg={mark}");
        }
    }
}
