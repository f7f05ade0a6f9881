/// Twice as much.
fn twice(x: u32) -> u32 {
    2 * x
}

impl Shape {
    fn area(&self, scale: f64, (a, b): (f64, f64)) -> f64 { scale * a * b }
    fn draw(self)
    where
        Self: Sized,
    {
    }
}
