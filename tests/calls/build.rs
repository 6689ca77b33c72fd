// Links the static library that tests/host makes; HOST_LIB names its folder.
fn main() {
    let dir = std::env::var("HOST_LIB").expect("HOST_LIB: the folder of libhost_numbers.a");
    println!("cargo:rustc-link-search=native={dir}");
    println!("cargo:rustc-link-lib=static=host_numbers");
    println!("cargo:rerun-if-env-changed=HOST_LIB");
}
