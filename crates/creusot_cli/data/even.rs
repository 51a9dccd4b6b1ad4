// Twice a number, which is even.
#[requires(-1000 <= x@)]
#[requires(x@ <= 1000)]
#[ensures(exists<k: Int> result@ == 2 * k)]
fn twice(x: i32) -> i32 {
    x + x
}

// A number, or the bound where that is larger.
#[ensures(if x@ < low@ { result@ == low@ } else { result@ == x@ })]
fn at_least(x: i32, low: i32) -> i32 {
    if x < low { low } else { x }
}
