// The larger of two numbers, and what its callers know by its two cases.
#[ensures(x@ <= y@ ==> result@ == y@)]
#[ensures(y@ < x@ ==> result@ == x@)]
fn larger(x: i32, y: i32) -> i32 {
    if x < y { y } else { x }
}

// The second of two numbers in order.
#[requires(x@ <= y@)]
#[ensures(result@ == y@)]
fn last(x: i32, y: i32) -> i32 {
    larger(x, y)
}

// A number with bounds in one clause, moved by one.
#[requires(0 <= x@ && x@ <= 100)]
#[ensures(0 < result@ && result@ <= 101)]
fn next(x: i32) -> i32 {
    x + 1
}

// A number at one of two ends, twice.
#[requires(x@ <= -10 || 10 <= x@)]
#[ensures(!(-10 < result@ && result@ < 10))]
#[ensures(result@ == x@)]
fn outer(x: i32) -> i32 {
    x
}
