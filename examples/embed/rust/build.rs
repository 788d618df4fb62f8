//! Links the library and what it takes memory by: `VMSTATE_LIBS` names their folders, parted by colons.

fn main() {
    let folders = std::env::var("VMSTATE_LIBS").expect("VMSTATE_LIBS: the folders of libvmstate_c.a, libvmstate_board_c.a and liblibc_c.a");
    for folder in folders.split(':') {
        println!("cargo:rustc-link-search=native={folder}");
        println!("cargo:rerun-if-changed={folder}");
    }
    println!("cargo:rustc-link-lib=static=vmstate_c");
    println!("cargo:rustc-link-lib=static=vmstate_board_c");
    println!("cargo:rustc-link-lib=static=libc_c");
    println!("cargo:rerun-if-env-changed=VMSTATE_LIBS");
}
