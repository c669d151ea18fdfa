//! One failpoint in a Rust program: FAILPOINTS='save=2*return->off' loses two orders.
//!
//!     cargo run --manifest-path embedding/rust/failreg/Cargo.toml --features failpoints --example orders

use failreg::fail_point;

fn save(_order: u32) -> &'static str {
    fail_point!("save", |_| "lost");
    "saved"
}

fn main() {
    failreg::setup(0, 1, 100_000).expect("FAILPOINTS can be read");
    for order in 0..4 {
        println!("order {order} is {}", save(order));
    }
}
