//! The benchmark: the library's calls beside the Rust.

use compare::bench;
use compare::library::Library;

fn main() {
    bench::print(&Library::linked());
}
