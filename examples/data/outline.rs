//! Shapes.
use std::fmt;

/// What can be drawn.
pub trait Draw {
    type Pen;

    fn draw(&self, pen: &mut Self::Pen);

    fn name(&self) -> &str {
        fn inner() -> &'static str {
            "shape"
        }
        inner()
    }
}

#[derive(Debug)]
// a comment between
pub struct Circle<T>
where
    T: Copy,
{
    radius: T,
}

mod lines {
    pub(crate) enum Line { Short, Long(u32) }

    pub mod dashes {
        pub union Dash {
            a: u8,
            b: [u8; 1],
        }
    }
}

impl<T: Copy> fmt::Display
    for Circle<T>
{
    fn fmt(&self, f: &mut fmt::Formatter<'_>) -> fmt::Result {
        f.write_str("circle")
    }
}

impl<T: Copy> Circle<T> {
    const fn new(radius: T) -> Circle<T> { Circle { radius } }
}

type Unit = Circle<()>;

fn main() { let c = || { struct Local; Local }; c(); }

fn broken( {
