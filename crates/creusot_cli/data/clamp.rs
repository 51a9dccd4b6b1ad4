// A number moved to the nearest within bounds.
#[requires(low@ <= high@)]
#[ensures(low@ <= result@)]
#[ensures(result@ <= high@)]
#[ensures(x@ <= low@ ==> result@ <= low@)]
#[ensures(high@ <= x@ ==> high@ <= result@)]
#[ensures(low@ <= x@ ==> x@ <= high@ ==> result@ <= x@)]
#[ensures(low@ <= x@ ==> x@ <= high@ ==> x@ <= result@)]
fn clamp(x: i32, low: i32, high: i32) -> i32 {
    if x < low {
        low
    } else if high < x {
        high
    } else {
        x
    }
}
