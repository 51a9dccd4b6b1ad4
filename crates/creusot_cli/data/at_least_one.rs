// A number, and one for none.
#[ensures(x@ == 0 ==> result@ == 1)]
#[ensures(1 <= x@ ==> result@ == x@)]
fn at_least_one(x: u32) -> u32 {
    match x {
        0 => 1,
        n => n,
    }
}
