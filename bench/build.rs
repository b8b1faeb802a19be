//! Where the static library is, and the C library's part that it allocates by, and a number by which the places of
//! functions are drawn: all are told by `run`.

fn main() {
    for folder in ["SITE_C", "KIT_C"] {
        println!("cargo::rerun-if-env-changed={folder}");
        let path =
            std::env::var(folder).unwrap_or_else(|_| panic!("{folder} is not set: start the benchmark by `run`"));
        println!("cargo::rustc-link-search=native={path}");
    }
    println!("cargo::rerun-if-changed={}/libsite_c.a", std::env::var("SITE_C").unwrap());
    // Where each function lies is drawn by this number.
    println!("cargo::rerun-if-env-changed=PLACES");
    let places = std::env::var("PLACES").expect("PLACES is not set: start the benchmark by `run`");
    println!("cargo::rustc-link-arg=-Wl,--shuffle-sections=*={places}");
    println!("cargo::rustc-link-lib=static=site_c");
    println!("cargo::rustc-link-lib=static=libc_c");
}
