// A quotient whose proof is not finished.
#[requires(y@ > 0)]
#[ensures(result@ <= x@)]
fn quotient(x: u32, y: u32) -> u32 {
    x / y
}
