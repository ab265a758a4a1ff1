//! The pointing: the azimuth of a mark from a shot and the horizontal angle between mark and
//! body. Document 02, requests 1 and 7.

use crate::card::Card;
use crate::exact::{is_reduced, reduce};
use crate::fieldbook::{shot, Angles, Fields};
use crate::options::Options;
use crate::refusal::Refusal;
use crate::sine::Sine;

/// The mark's azimuth from what the shot gave and the angle, clockwise from mark to body.
fn mark(shot: Result<Angles, Refusal>, angle: i64) -> Result<i64, Refusal> {
    let Angles { azimuth, .. } = shot?;
    if !is_reduced(angle) {
        return Err(Refusal::AngleOutOfRange);
    }
    Ok(reduce(azimuth - angle))
}

/// The pointing with eleven plain numbers and the options of its shot; the refusals of the shot,
/// then 15.
pub fn pointing(
    sine: &Sine,
    fields: &Fields,
    angle: i64,
    options: Options,
) -> Result<i64, Refusal> {
    mark(shot(sine, fields, options), angle)
}

/// The pointing from a card; the refusals of the shot from it, then 15.
pub fn pointing_from_card(
    sine: &Sine,
    card: &Card,
    angle: i64,
    options: Options,
) -> Result<i64, Refusal> {
    mark(card.shot(sine, options), angle)
}

#[cfg(test)]
mod tests {
    use super::*;
    use crate::exact::TURN;

    /// The Sun on 4 July 1980.
    const FIELDS: Fields = [1980, 7, 4, 14, 41, 3_294, 245, -922_076, -743_081, 1, 115_194];
    /// The Sun on 30 April 1976.
    const OTHER: Fields = [1976, 4, 30, 5, 16, 23_235, -900, 510_911, 6_307_323, 1, 114_724];

    /// The azimuths are those of the outside vectors of shots, one by each edition.
    #[test]
    fn angle_is_subtracted_and_reduced() {
        let sine = Sine::new();
        for (fields, edition, azimuth) in [(FIELDS, 1, 12_170_702_758), (OTHER, 2, 10_126_555_739)]
        {
            let (card, options) = (Card::confirmed(&fields), Options { edition });
            let marks = [
                (0, azimuth),
                (1, azimuth - 1),
                (azimuth, 0),
                (azimuth + 1, TURN - 1),
                (TURN - 1, azimuth + 1),
            ];
            for (angle, mark) in marks {
                assert_eq!(pointing(&sine, &fields, angle, options), Ok(mark));
                assert_eq!(pointing_from_card(&sine, &card, angle, options), Ok(mark));
            }
        }
    }

    #[test]
    fn angle_is_tested_behind_the_shot() {
        let sine = Sine::new();
        let mut unknown = FIELDS;
        unknown[9] = 3;
        let known = Options::default();
        let no_edition = Options { edition: 0 };
        for angle in [-1, TURN, i64::MIN, i64::MAX] {
            let refused = |fields: &Fields, options: Options, refusal: Refusal| {
                assert_eq!(pointing(&sine, fields, angle, options), Err(refusal));
                let card = Card::confirmed(fields);
                assert_eq!(pointing_from_card(&sine, &card, angle, options), Err(refusal));
            };
            refused(&FIELDS, known, Refusal::AngleOutOfRange);
            refused(&FIELDS, no_edition, Refusal::NoSuchEdition);
            refused(&unknown, no_edition, Refusal::NoSuchBody);
            let fresh = pointing_from_card(&sine, &Card::fresh(), angle, no_edition);
            assert_eq!(fresh, Err(Refusal::FieldNotConfirmed));
        }
    }
}
