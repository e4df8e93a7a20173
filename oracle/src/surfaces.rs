//! A stand-in for the Rust's trait `ParametricSurface` and its five analytic surfaces, which are not at hand: written from the scope,
//! only what the walk calls, over the Rust's `analytic.rs`.

use crate::surface_math::analytic::*;
use crate::{Frame3D, Point3D, Vector3D};
use std::f64::consts::TAU;

pub(crate) trait ParametricSurface {
    fn eval_point(&self, u: f64, v: f64) -> Point3D;
    fn eval_d1(&self, u: f64, v: f64) -> (Point3D, [Vector3D; 2]);
    fn u_bounds(&self) -> (f64, f64);
    fn v_bounds(&self) -> (f64, f64);
    fn u_period(&self) -> Option<f64>;
    fn v_period(&self) -> Option<f64>;
}

/// A kind (0 plane, 1 cylinder, 2 cone, 3 sphere, 4 torus), its frame and sizes, and the windows and turn marks of u and v.
#[derive(Debug, Clone, Copy)]
pub(crate) struct Patch {
    pub(crate) kind: usize,
    pub(crate) frame: Frame3D,
    pub(crate) sizes: [f64; 2],
    pub(crate) windows: [(f64, f64); 2],
    pub(crate) marks: [bool; 2],
}

impl Patch {
    /// From the job file's numbers: origin, x, y and z direction, two sizes, then low and high of u and of v, all open where they are left
    /// out. Marks: 1 for u, 2 for v, added.
    pub(crate) fn from_numbers(kind: usize, marks: u64, n: &[f64]) -> Patch {
        let vector = |at: usize| Vector3D::new(n[at], n[at + 1], n[at + 2]);
        let window = |at: usize| match n.get(at..at + 2) {
            Some(ends) => (ends[0], ends[1]),
            None => (f64::NEG_INFINITY, f64::INFINITY),
        };
        Patch {
            kind,
            frame: Frame3D {
                origin: Point3D::new(n[0], n[1], n[2]),
                x: vector(3),
                y: vector(6),
                z: vector(9),
            },
            sizes: [n[12], n[13]],
            windows: [window(14), window(16)],
            marks: [marks & 1 != 0, marks & 2 != 0],
        }
    }

    #[inline(always)]
    pub(crate) fn derivative(&self, u: f64, v: f64, du: u32, dv: u32) -> Vector3D {
        let (f, [r, s]) = (&self.frame, self.sizes);
        match self.kind {
            0 => plane_derivative(f, du, dv),
            1 => cylinder_derivative(f, r, u, v, du, dv),
            2 => cone_derivative(f, r, s, u, v, du, dv),
            3 => sphere_derivative(f, r, u, v, du, dv),
            _ => torus_derivative(f, r, s, u, v, du, dv),
        }
    }

    /// The turn, where a direction is marked: only whether there is a period counts.
    fn period(&self, k: usize) -> Option<f64> {
        self.marks[k].then_some(TAU)
    }
}

impl ParametricSurface for Patch {
    fn eval_point(&self, u: f64, v: f64) -> Point3D {
        let (f, [r, s]) = (&self.frame, self.sizes);
        match self.kind {
            0 => plane_d0(f, u, v),
            1 => cylinder_d0(f, r, u, v),
            2 => cone_d0(f, r, s, u, v),
            3 => sphere_d0(f, r, u, v),
            _ => torus_d0(f, r, s, u, v),
        }
    }

    #[inline(always)]
    fn eval_d1(&self, u: f64, v: f64) -> (Point3D, [Vector3D; 2]) {
        let d = [self.derivative(u, v, 1, 0), self.derivative(u, v, 0, 1)];
        (self.eval_point(u, v), d)
    }

    fn u_bounds(&self) -> (f64, f64) {
        self.windows[0]
    }

    fn v_bounds(&self) -> (f64, f64) {
        self.windows[1]
    }

    fn u_period(&self) -> Option<f64> {
        self.period(0)
    }

    fn v_period(&self) -> Option<f64> {
        self.period(1)
    }
}
