//! Directions and their turns. Document 01, "Polaris", second paragraph.

use crate::exact::over_scale;
use crate::sine::Sine;

/// A direction: three components, each scaled to R.
pub type Direction = [i64; 3];

/// R1(angle): y' = y cos + z sin, z' = -y sin + z cos.
pub fn r1(sine: &Sine, angle: i64, [x, y, z]: Direction) -> Direction {
    let (sin, cos) = (sine.sin(angle), sine.cos(angle));
    [x, over_scale(y * cos + z * sin), over_scale(-y * sin + z * cos)]
}

/// R2(angle): x' = x cos - z sin, z' = x sin + z cos.
pub fn r2(sine: &Sine, angle: i64, [x, y, z]: Direction) -> Direction {
    let (sin, cos) = (sine.sin(angle), sine.cos(angle));
    [over_scale(x * cos - z * sin), y, over_scale(x * sin + z * cos)]
}

/// R3(angle): x' = x cos + y sin, y' = -x sin + y cos.
pub fn r3(sine: &Sine, angle: i64, [x, y, z]: Direction) -> Direction {
    let (sin, cos) = (sine.sin(angle), sine.cos(angle));
    [over_scale(x * cos + y * sin), over_scale(-x * sin + y * cos), z]
}
