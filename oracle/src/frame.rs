//! A stand-in for the Rust's `frame.rs`, which is not at hand: written from document 01 and the settled points, only what is called.

use crate::{Point3D, Vector3D};

/// "A frame holds an origin and three directions as given."
#[derive(Debug, Clone, Copy)]
pub struct Frame3D {
    pub(crate) origin: Point3D,
    pub(crate) x: Vector3D,
    pub(crate) y: Vector3D,
    pub(crate) z: Vector3D,
}

impl Frame3D {
    pub(crate) fn x_direction(&self) -> Vector3D {
        self.x
    }

    pub(crate) fn y_direction(&self) -> Vector3D {
        self.y
    }

    pub(crate) fn z_direction(&self) -> Vector3D {
        self.z
    }

    /// Each coordinate is ((origin + a * x) + b * y) + c * z.
    pub(crate) fn point_at(&self, a: f64, b: f64, c: f64) -> Point3D {
        self.origin + a * self.x + b * self.y + c * self.z
    }
}
