use creusot_contracts::*;

/// One more, of what is below one hundred.
#[requires(x@ < 100)]
#[ensures(result@ == x@ + 1)]
pub fn inc(x: i32) -> i32 {
    x + 1
}
