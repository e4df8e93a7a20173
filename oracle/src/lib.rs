//! The Rust that the proved code is compared with, and the comparisons.

mod capi;
mod check;
pub mod compare;
mod file;
mod frame;
mod intersect;
mod job;
mod math;
mod ours;
mod patch;
#[allow(dead_code)]
mod point;
mod probe;
pub mod random;
pub mod speed;
mod surface_math;
mod surfaces;
pub mod timing;
mod tolerance;
mod trace;
#[allow(dead_code)]
mod vector;

use frame::Frame3D;
use point::Point3D;
use tolerance::Tolerance;
use vector::Vector3D;
