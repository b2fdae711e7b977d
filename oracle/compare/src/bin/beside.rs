//! Two archives in one run: what an earlier landing took, and what this one takes.

use compare::beside;
use compare::library::Library;

fn main() {
    beside::print(&Library::before(), &Library::linked());
}
