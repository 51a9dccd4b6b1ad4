// The mean of two numbers, rounded down: in the wider type there is room for their sum.
#[ensures(result@ + result@ <= a@ + b@)]
#[ensures(a@ + b@ <= result@ + result@ + 1)]
fn mean(a: u8, b: u8) -> u16 {
    (a as u16 + b as u16) / 2
}
