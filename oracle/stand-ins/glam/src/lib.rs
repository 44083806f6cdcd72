//! Stands in for `glam`: plain vectors with the operations that the readers and the builder use.

#[derive(Debug, Clone, Copy, PartialEq)]
pub struct Vec3A([f32; 3]);

impl Vec3A {
    pub fn new(x: f32, y: f32, z: f32) -> Self {
        Self([x, y, z])
    }

    pub fn from_array(array: [f32; 3]) -> Self {
        Self(array)
    }

    pub fn to_array(self) -> [f32; 3] {
        self.0
    }

    pub fn is_finite(self) -> bool {
        self.0.iter().all(|value| value.is_finite())
    }
}

#[derive(Debug, Clone, Copy, PartialEq)]
pub struct Quat([f32; 4]);

impl Quat {
    pub fn from_array(array: [f32; 4]) -> Self {
        Self(array)
    }

    pub fn to_array(self) -> [f32; 4] {
        self.0
    }

    pub fn is_finite(self) -> bool {
        self.0.iter().all(|value| value.is_finite())
    }

    /// The order of summation is document 01's, one rounding for each operation.
    pub fn length_squared(self) -> f32 {
        let [x, y, z, w] = self.0;
        ((x * x + y * y) + z * z) + w * w
    }
}
