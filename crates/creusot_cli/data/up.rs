#[requires(n@ >= 0)]
#[ensures(result@ >= n@)]
fn up(n: i32) -> i32 { let mut i: i32 = 0; #[invariant(i@ <= n@)] while i < n { i += 1; } i }
