#[requires(-1000 <= x@)]
#[requires(x@ <= 1000)]
#[ensures(result@ == x@ + x@)]
fn double(x: i32) -> i32 {
    x + x
}
