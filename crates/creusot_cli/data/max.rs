// The larger of two numbers.
#[ensures(a@ <= result@)]
#[ensures(b@ <= result@)]
#[ensures(a@ <= b@ ==> result@ <= b@)]
#[ensures(b@ <= a@ ==> result@ <= a@)]
fn max(a: i32, b: i32) -> i32 {
    if a < b { b } else { a }
}
