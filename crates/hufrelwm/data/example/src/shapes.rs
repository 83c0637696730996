//! Shapes.

#[derive(Debug, Clone)]
pub struct Circle {
    pub radius: f64,
}

pub struct Square(f64);

pub enum Kind {
    Round,
    #[cfg(feature = "flat")]
    Flat,
}

fn area(square: &Square) -> f64 {
    square.0 * square.0
}
