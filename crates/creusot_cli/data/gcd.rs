// The greatest common divisor by subtraction; that both numbers stay positive is what is claimed.
#[requires(a@ > 0)]
#[requires(b@ > 0)]
#[ensures(result@ > 0)]
fn gcd(a: u32, b: u32) -> u32 {
    let mut x = a;
    let mut y = b;
    #[invariant(x@ > 0)]
    #[invariant(y@ > 0)]
    while x != y {
        if x < y {
            y -= x;
        } else if y < x {
            x -= y;
        }
    }
    x
}
