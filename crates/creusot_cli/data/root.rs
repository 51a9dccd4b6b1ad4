// The integer square root, exactly: takes the odd numbers away one after another.
#[requires(n@ <= 4294967293)]
#[ensures(result@ * result@ <= n@)]
#[ensures(n@ < (result@ + 1) * (result@ + 1))]
fn root(n: u32) -> u32 {
    let mut r: u32 = 0;
    let mut rest: u32 = n;
    let mut odd: u32 = 1;
    #[invariant(odd@ == r@ + r@ + 1)]
    #[invariant(rest@ + r@ * r@ == n@)]
    while odd <= rest {
        rest -= odd;
        odd += 2;
        r += 1;
    }
    r
}
