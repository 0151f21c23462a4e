//! The crops of change request W1: which ones a log may have, and a crop's part of a day's figure.
use super::Reason;
use crate::Crop;

/// The reasons for refusal 13.
pub const REASONS: [Reason<Crop>; 6] = [
    ("a letter", |crop| {
        !crop.code.iter().all(u8::is_ascii_uppercase)
    }),
    ("the year", |crop| !(1_950..=2_099).contains(&crop.year)),
    ("a percentage", |crop| {
        crop.percentages.iter().any(|&percentage| percentage > 200)
    }),
    ("S below 1", |crop| crop.start < 1),
    ("F not above S", |crop| crop.full <= crop.start),
    ("F over 365", |crop| crop.full > 365),
];

/// Refusal 13 is for a crop that this does not hold of.
pub fn in_range(crop: &Crop) -> bool {
    REASONS.iter().all(|(_, holds)| !holds(crop))
}

/// Where a day has a percentage of its own, that percentage as a fraction.
pub fn percentage(crop: &Crop, year: u16, d: u16) -> Option<(i128, i128)> {
    if year != crop.year || d < crop.start || d > crop.full {
        return None;
    }
    let [d, s, f] = [d, crop.start, crop.full].map(i128::from);
    let l = f - s;
    let place = 10 * (d - s);
    // Stage k stands at k × L, and its weight falls from L there to 0 at the stages beside it: for a day between two
    // stages, the weights are the document's L - r and r; at F stage 10 has all of L.
    let weighted = crop.percentages.iter().zip(0..).map(|(&percentage, k)| {
        let weight = l - (place - k * l).abs();
        i128::from(percentage) * weight.max(0)
    });
    Some((weighted.sum(), l))
}

/// The reference figure times a percentage over 100, rounded once, to nearest with halves up.
pub fn figure(reference: u32, (numerator, denominator): (i128, i128)) -> u32 {
    let (dividend, divisor) = (i128::from(reference) * numerator, 100 * denominator);
    let half_or_more = 2 * (dividend % divisor) >= divisor;
    let nearest = dividend / divisor + i128::from(half_or_more);
    u32::try_from(nearest).expect("a crop figure has four bytes")
}

#[cfg(test)]
mod tests {
    use super::*;

    const BEAN: Crop = Crop {
        code: *b"BEAN",
        year: 2008,
        start: 130,
        full: 250,
        percentages: [20, 22, 30, 45, 65, 90, 105, 107, 95, 60, 30],
    };

    fn figure_on(crop: &Crop, d: u16, reference: u32) -> Option<u32> {
        Some(figure(reference, percentage(crop, crop.year, d)?))
    }

    fn reasons(crop: Crop) -> String {
        let holding = REASONS.iter().filter(|(_, holds)| holds(&crop));
        holding
            .map(|(reason, _)| *reason)
            .collect::<Vec<_>>()
            .join(", ")
    }

    fn spanning(start: u16, full: u16) -> Crop {
        Crop {
            start,
            full,
            ..BEAN
        }
    }

    #[test]
    fn days_worked_by_hand() {
        // L is 120. Day 136: 60 = 0 × 120 + 60, (20 × 60 + 22 × 60)/120 = 21.
        assert_eq!(percentage(&BEAN, 2008, 136), Some((21 * 120, 120)));
        assert_eq!(figure_on(&BEAN, 136, 2_500), Some(525));
        // Day 187: 570 = 4 × 120 + 90, (65 × 30 + 90 × 90)/120 = 83.75; 0.8375 × 2,814 = 2,356.725.
        assert_eq!(percentage(&BEAN, 2008, 187), Some((10_050, 120)));
        assert_eq!(figure_on(&BEAN, 187, 2_814), Some(2_357));
        // Day 229: 990 = 8 × 120 + 30, (95 × 90 + 60 × 30)/120 = 86.25; 0.8625 × 1,000 = 862.5.
        assert_eq!(figure_on(&BEAN, 229, 1_000), Some(863));
        assert_eq!(figure_on(&BEAN, 229, 0), Some(0));
    }

    #[test]
    fn the_first_day_the_last_and_those_beside_them() {
        let around = [129, 130, 131, 249, 250, 251].map(|d| percentage(&BEAN, 2008, d));
        // Day 131: (20 × 110 + 22 × 10)/120. Day 249: 1,190 = 9 × 120 + 110, (60 × 10 + 30 × 110)/120.
        let expected = [20 * 120, 2_420, 3_900, 30 * 120].map(|numerator| Some((numerator, 120)));
        assert_eq!(around[1..5], expected);
        assert_eq!((around[0], around[5]), (None, None));
    }

    #[test]
    fn only_its_own_year() {
        let years = [2007, 2008, 2009].map(|year| percentage(&BEAN, year, 190).is_some());
        assert_eq!(years, [false, true, false]);
    }

    #[test]
    fn the_shortest_and_the_longest_crop() {
        let shortest = spanning(364, 365);
        let longest = spanning(1, 365);
        assert_eq!(percentage(&shortest, 2008, 364), Some((20, 1)));
        assert_eq!(percentage(&shortest, 2008, 365), Some((30, 1)));
        assert_eq!(percentage(&shortest, 2008, 366), None);
        // L is 364. Day 365 is F; day 364: 3,630 = 9 × 364 + 354.
        assert_eq!(percentage(&longest, 2008, 365), Some((30 * 364, 364)));
        let before = 60 * 10 + 30 * 354;
        assert_eq!(percentage(&longest, 2008, 364), Some((before, 364)));
        assert_eq!(percentage(&longest, 2008, 366), None);
    }

    #[test]
    fn the_document_in_its_own_letters() {
        for full in 131..=365 {
            let crop = spanning(130, full);
            let l = i128::from(full - 130);
            for d in 130..full {
                let tens = i128::from(d - 130) * 10;
                let (i, r) = ((tens / l) as usize, tens % l);
                let [here, next] = [i, i + 1].map(|stage| i128::from(crop.percentages[stage]));
                let expected = (here * (l - r) + next * r, l);
                assert_eq!(percentage(&crop, 2008, d), Some(expected));
            }
        }
    }

    #[test]
    fn halves_go_up_and_nothing_else_does() {
        let of = |percentage, references: [u32; 3]| {
            references.map(|reference| figure(reference, (percentage, 1)))
        };
        assert_eq!(of(50, [1, 2, 3]), [1, 1, 2]);
        assert_eq!(of(1, [49, 50, 149]), [0, 1, 1]);
        assert_eq!(of(0, [1, 9_999, u32::MAX]), [0, 0, 0]);
        assert_eq!(of(100, [1, 2_814, u32::MAX]), [1, 2_814, u32::MAX]);
        // One third of a percent: 149.99..., 150 and 150.00... hundredths of a unit.
        assert_eq!(
            [449, 450, 451].map(|reference| figure(reference, (1, 3))),
            [1, 2, 2]
        );
    }

    #[test]
    fn two_hundred_per_cent_is_twice_the_figure() {
        let double = Crop {
            percentages: [200; 11],
            ..spanning(1, 365)
        };
        for d in 1..=365 {
            assert_eq!(figure_on(&double, d, 80_000), Some(160_000));
        }
    }

    #[test]
    fn each_reason_for_refusal_13_at_its_edge() {
        assert_eq!(reasons(BEAN), "");
        for place in 0..4 {
            let lettered = |letter| {
                let mut crop = BEAN;
                crop.code[place] = letter;
                reasons(crop)
            };
            assert_eq!([b'A', b'Z'].map(lettered), [""; 2]);
            assert_eq!([b'@', b'[', b'a', 0].map(lettered), ["a letter"; 4]);
        }
        let year = |year| reasons(Crop { year, ..BEAN });
        assert_eq!([1_950, 2_099].map(year), [""; 2]);
        assert_eq!([1_949, 2_100].map(year), ["the year"; 2]);
        for stage in 0..11 {
            let with = |percentage| {
                let mut crop = BEAN;
                crop.percentages[stage] = percentage;
                reasons(crop)
            };
            assert_eq!([0, 200].map(with), [""; 2]);
            assert_eq!([201, 255].map(with), ["a percentage"; 2]);
        }
        let span = |(start, full)| reasons(spanning(start, full));
        assert_eq!([(1, 2), (1, 365), (364, 365)].map(span), [""; 3]);
        assert_eq!([(0, 1), (0, 365)].map(span), ["S below 1"; 2]);
        let not_above = [(1, 1), (2, 1), (365, 365)].map(span);
        assert_eq!(not_above, ["F not above S"; 3]);
        assert_eq!([(1, 366), (365, 65_535)].map(span), ["F over 365"; 2]);
        assert_eq!(span((0, 0)), "S below 1, F not above S");
        assert_eq!(span((366, 366)), "F not above S, F over 365");
    }
}
