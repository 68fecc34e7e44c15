//! Vectors in half samples: prediction (6.1.1), the picture's edge, chroma (Table 15).

use crate::description::Vector;

use super::description::Macroblock;
use super::format::Format;
use super::tables;

/// "The permitted range [-16, 15.5]."
pub const LEAST: i8 = -32;
pub const GREATEST: i8 = 31;

pub fn in_range(component: i8) -> bool {
    (LEAST..=GREATEST).contains(&component)
}

/// The predictor of the macroblock at `index`, by document 004's decision rules in their order.
pub fn predictor(
    format: Format,
    macroblocks: &[Macroblock],
    index: usize,
    has_header: bool,
) -> Vector {
    let columns = format.columns();
    let (row, column) = (index / columns, index % columns);
    // Rules 1 and 5: zero for INTRA and for what isn't coded.
    let candidate = |index: usize| {
        let macroblock = &macroblocks[index];
        if macroblock.is_inter() {
            macroblock.vector
        } else {
            Vector::default()
        }
    };
    let outside_left = column == 0;
    let outside_right = column + 1 == columns;
    let outside_top = row == 0 || has_header;
    // Rule 2.
    let first = if outside_left {
        Vector::default()
    } else {
        candidate(index - 1)
    };
    // Rule 3, and rule 4 after it.
    let second = if outside_top {
        first
    } else {
        candidate(index - columns)
    };
    let third = if outside_right {
        Vector::default()
    } else if outside_top {
        first
    } else {
        candidate(index - columns + 1)
    };
    Vector {
        horizontal: median([first.horizontal, second.horizontal, third.horizontal]),
        vertical: median([first.vertical, second.vertical, third.vertical]),
    }
}

pub fn median(mut candidates: [i8; 3]) -> i8 {
    candidates.sort_unstable();
    candidates[1]
}

/// "Only one of the pair will yield a macroblock vector component falling within the permitted range."
pub fn landing(predictor: i8, index: usize) -> i8 {
    let (first, second, _) = tables::MVD[index];
    [Some(first), second]
        .into_iter()
        .flatten()
        .map(|difference| i16::from(predictor) + i16::from(difference))
        .find(|&component| i8::try_from(component).is_ok_and(in_range))
        .expect("one of the pair lands") as i8
}

/// The word that leads from the predictor to the component.
pub fn word_to(predictor: i8, component: i8) -> &'static str {
    let index = (0..tables::MVD.len()).find(|&index| landing(predictor, index) == component);
    tables::MVD[index.expect("every component in range has a word")].2
}

/// A component's whole samples, and whether a half comes to them.
pub fn whole_and_half(component: i8) -> (isize, bool) {
    let component = isize::from(component);
    (component.div_euclid(2), component.rem_euclid(2) == 1)
}

/// "All samples used by the 16 by 16 luminance part must lie in the picture." A half sample uses the
/// samples on both its sides.
pub fn in_picture(vector: Vector, format: Format, index: usize) -> bool {
    let (left, top) = format.origin(index);
    let fits = |from: usize, by: i8, size: usize| {
        let (whole, half) = whole_and_half(by);
        let first = from as isize + whole;
        let last = first + 15 + isize::from(half);
        first >= 0 && last < size as isize
    };
    fits(left, vector.horizontal, format.width()) && fits(top, vector.vertical, format.height())
}

/// "Dividing the component values of the macroblock vector by two", and Table 15. Half a luminance sample
/// is a quarter of a chroma sample.
pub fn chroma_component(component: i8) -> i8 {
    let quarters = component.unsigned_abs();
    let halves = 2 * (quarters / 4) as i8 + tables::HALVES_OF_QUARTERS[usize::from(quarters % 4)];
    halves * component.signum()
}

pub fn chroma_vector(vector: Vector) -> Vector {
    Vector {
        horizontal: chroma_component(vector.horizontal),
        vertical: chroma_component(vector.vertical),
    }
}

#[cfg(test)]
mod tests {
    use super::*;

    #[test]
    fn exactly_one_of_a_pair_lands_and_every_component_is_reached() {
        for predictor in LEAST..=GREATEST {
            let mut reached: Vec<i8> = (0..64).map(|index| landing(predictor, index)).collect();
            reached.sort_unstable();
            assert_eq!(reached, (LEAST..=GREATEST).collect::<Vec<i8>>());
            for (first, second, _) in tables::MVD {
                let both = [Some(first), second].into_iter().flatten();
                let landed = both.filter(|&difference| {
                    let sum = i16::from(predictor) + i16::from(difference);
                    (i16::from(LEAST)..=i16::from(GREATEST)).contains(&sum)
                });
                assert_eq!(landed.count(), 1);
            }
        }
    }

    /// Where luminance lies in the picture, so does chroma, sample by sample.
    #[test]
    fn chroma_lies_inside_by_itself() {
        for format in Format::ALL {
            for (size, last) in [
                (format.width(), format.columns()),
                (format.height(), format.groups()),
            ] {
                for at in 0..last {
                    for component in LEAST..=GREATEST {
                        let (whole, half) = whole_and_half(component);
                        let from = 16 * at as isize + whole;
                        if from < 0 || from + 15 + isize::from(half) >= size as isize {
                            continue;
                        }
                        let (whole, half) = whole_and_half(chroma_component(component));
                        let from = 8 * at as isize + whole;
                        assert!(from >= 0 && from + 7 + isize::from(half) < size as isize / 2);
                    }
                }
            }
        }
    }
}
