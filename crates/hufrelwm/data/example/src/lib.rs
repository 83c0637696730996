//! Shapes and their colors.

mod shapes;

macro_rules! color {
    ($name:ident) => {
        #[derive(Clone)]
        pub struct $name;
    };
}

pub mod colors {
    color!(Red);
    color!(Green);
}

pub mod draw {
    use super::colors::*;
    use super::shapes::{Circle, Kind as ShapeKind, Squares};
    use log::debug;

    pub fn draw(circle: &Circle, kind: ShapeKind, color: Red) {
        debug!("drawn");
    }
}

#[cfg(feature = "deep")]
pub mod deep;

pub use shapes::*;
