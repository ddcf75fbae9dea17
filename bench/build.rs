//! Puts the counting allocator of `memory.rs` before the C library's: its calls are those of both sides.
fn main() {
    for call in ["malloc", "calloc", "realloc", "free"] {
        println!("cargo:rustc-link-arg-bins=-Wl,--wrap={call}");
    }
}
