// Points that are copied, and pairs.
#[derive(Clone, Copy)]
struct Point {
    x: i32,
    y: i32,
}

#[derive(Clone, Copy)]
struct Segment {
    from: Point,
    to: Point,
}

#[requires(-1000000 < p.x@)]
#[requires(p.x@ < 1000000)]
#[ensures(result.x@ == p.x@ + 1)]
#[ensures(result.y == p.y)]
fn right(p: Point) -> Point {
    Point { x: p.x + 1, y: p.y }
}

#[requires(-1000000 < p.x@)]
#[requires(p.x@ < 999999)]
#[ensures(result.from == p)]
#[ensures(result.to.x@ == p.x@ + 2)]
fn two_right(p: Point) -> Segment {
    let to = right(right(p));
    Segment { from: p, to: to }
}

#[ensures(result.0 == pair.1 && result.1 == pair.0)]
fn swapped(pair: (i32, bool)) -> (bool, i32) {
    (pair.1, pair.0)
}
