// How far two numbers are apart.
#[ensures(a@ < b@ ==> result@ == b@ - a@)]
#[ensures(b@ <= a@ ==> result@ == a@ - b@)]
fn abs_diff(a: u32, b: u32) -> u32 {
    if a < b { b - a } else { a - b }
}
