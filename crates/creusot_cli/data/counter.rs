// A counter that stays at 100.
#[requires(c@ <= 100)]
#[ensures(result@ <= 100)]
#[ensures(result@ >= c@)]
fn next(c: u8) -> u8 {
    if c < 100 { c + 1 } else { c }
}

#[ensures(result@ <= 100)]
fn twice() -> u8 {
    let a = next(0);
    next(a)
}
