//! Links the archive of the bench's own calls that `bench/build` made.

fn main() {
    println!("cargo:rerun-if-env-changed=BENCH_CALLS");
    if let Ok(folder) = std::env::var("BENCH_CALLS") {
        println!("cargo:rustc-link-search=native={folder}");
        println!("cargo:rustc-link-lib=static=bench_calls");
        println!("cargo:rerun-if-changed={folder}/libbench_calls.a");
    }
}
