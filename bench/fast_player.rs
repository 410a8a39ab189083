//! The ring program in Rust that is written for speed: standard input to standard output.

mod fast;
#[path = "../tests/model/mod.rs"]
mod model;

fn main() -> std::io::Result<()> {
    fast::script::play(std::io::stdin().lock(), std::io::stdout().lock())
}
