//! Links the proved library, which `host/bench` puts into the folder that MEASURED names.
fn main() {
    println!("cargo:rerun-if-env-changed=MEASURED");
    match std::env::var("MEASURED") {
        Ok(folder) => {
            println!("cargo:rustc-link-search=native={folder}");
            println!("cargo:rustc-link-lib=static=measured");
            println!("cargo:rerun-if-changed={folder}/libmeasured.a");
        }
        Err(_) => panic!("MEASURED names the folder of libmeasured.a: run host/bench"),
    }
}
