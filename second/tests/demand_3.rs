//! Demand 3 on a sample: the table sine against the polynomial, and s against the
//! polynomial longitude.

use second::arguments::{Arguments, ALL};
use second::bound::LongitudeBounds;
use second::edition::Edition;
use second::exact::{short_way, QUADRANT};
use second::fieldbook::check;
use second::frame::frame;
use second::options::Options;
use second::polynomial::Polynomial;
use second::random::{accepted, Random};
use second::sine::Sine;
use second::sun::{polynomial_longitude, sun};

/// |Sin(a) - R * P(a)| is at most 30: the nearest to R * P(a) lies within 29 of Sin(a). The sample
/// has the angle of the largest difference, 11.556.
#[test]
fn sine_within_30_of_the_polynomial() {
    let (sine, polynomial) = (Sine::new(), Polynomial::new());
    let mut random = Random::new(3);
    let farthest = 3_141_300_884;
    let middles = (0..5_400).map(|n| 600_000 * n + 300_000);
    let anywhere = (0..1_000).map(|_| random.between(0, QUADRANT));
    let off = |a| (sine.sin(a) - polynomial.nearest_scaled(a)).abs();
    let worst = middles.chain(anywhere).map(off).max();
    assert!(worst <= Some(29), "{worst:?}");
    assert!(worst <= Some(off(farthest)), "{worst:?}");
}

/// s lies within 4 units of the polynomial longitude by the short edition, within 5 by the other,
/// the short way round.
#[test]
fn longitude_within_its_bound_of_the_polynomial() {
    let (sine, polynomial, bounds) = (Sine::new(), Polynomial::new(), LongitudeBounds::new());
    let mut random = Random::new(4);
    for _ in 0..300 {
        let fields = accepted(&mut random);
        let instant = check(&fields, Options::default()).expect("an accepted instant").instant;
        let q = instant.ephemeris.millionths;
        let arguments = Arguments::at(&instant.ephemeris, &ALL);
        let frame = frame(&sine, &instant, &arguments);
        for edition in [Edition::Short, Edition::Full] {
            let s = sun(&sine, edition, &arguments, q, &frame).apparent_longitude;
            let exact = polynomial_longitude(&polynomial, edition, &arguments, q);
            let within = short_way(s, exact) <= bounds.of(edition);
            assert!(within, "{edition:?}, {fields:?}");
        }
    }
}
