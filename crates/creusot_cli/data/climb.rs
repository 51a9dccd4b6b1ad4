// Counts up to a number, by a loop that is left by its answer.

#[requires(n@ >= 0)]
#[ensures(result@ == n@)]
fn climb(n: i32) -> i32 {
    let mut k: i32 = 0;
    #[invariant(k@ <= n@)]
    loop {
        if k >= n {
            return k;
        }
        k += 1;
    }
}

// The largest number with one digit that is below another one: larger ones are passed over, and no run comes to the macro.
#[requires(n@ > 0)]
#[ensures(result@ < n@)]
#[ensures(result@ <= 9)]
fn digit_below(n: u32) -> u32 {
    let mut k: u32 = n;
    #[invariant(k@ <= n@)]
    #[invariant(k@ > 0)]
    loop {
        k -= 1;
        if k > 9 {
            continue;
        }
        break;
    }
    if k >= n {
        unreachable!();
    }
    k
}
