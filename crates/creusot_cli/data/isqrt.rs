// The integer square root: takes the odd numbers away one after another.
#[ensures(result@ <= n@)]
fn isqrt(n: u32) -> u32 {
    let mut r: u32 = 0;
    let mut rest: u32 = n;
    let mut odd: u32 = 1;
    #[invariant(1 <= odd@)]
    #[invariant(odd@ <= r@ + r@ + 1)]
    #[invariant(rest@ + r@ <= n@)]
    while odd <= rest {
        rest -= odd;
        odd += 2;
        r += 1;
    }
    r
}
