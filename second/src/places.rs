//! The rules for places: which one a report goes to, and how nine of them are split.

use crate::geometry::Bbox;

/// The most places a page has.
pub const MOST_PLACES: usize = 8;

/// The fewest places of a page other than the root.
pub const FEWEST_PLACES: usize = 4;

/// What stands in a page: an entry of a leaf or a child of an inner page.
pub trait Place {
    fn bbox(&self) -> Bbox;
}

#[derive(Clone, Copy)]
enum Axis {
    X,
    Y,
}

impl Axis {
    fn key(self, bbox: Bbox) -> (u32, u32) {
        match self {
            Axis::X => bbox.along_x(),
            Axis::Y => bbox.along_y(),
        }
    }
}

/// The smallest box over some places, or none where there is no place.
pub fn cover_of<T: Place>(places: &[T]) -> Option<Bbox> {
    places.iter().map(T::bbox).reduce(Bbox::joined)
}

/// The place whose area grows least by `bbox`; then the smaller area; then the lower place.
pub fn choose<T: Place>(places: &[T], bbox: Bbox) -> usize {
    let cost = |place: &T| {
        let present = place.bbox();
        let growth = present.joined(bbox).area() - present.area();
        (growth, present.area())
    };
    let mut best = 0;
    for (index, place) in places.iter().enumerate() {
        if cost(place) < cost(&places[best]) {
            best = index;
        }
    }
    best
}

/// Parts nine places in two, each in the winning order; the first part stays in its page.
pub fn split<T: Place>(mut nine: Vec<T>) -> (Vec<T>, Vec<T>) {
    let candidates = [(Axis::X, 4), (Axis::X, 5), (Axis::Y, 4), (Axis::Y, 5)];
    let mut best = candidates[0];
    for candidate in candidates {
        if sum_of_areas(&nine, candidate) < sum_of_areas(&nine, best) {
            best = candidate;
        }
    }
    let (axis, cut) = best;
    nine.sort_by_key(|place| axis.key(place.bbox()));
    let second = nine.split_off(cut);
    (nine, second)
}

fn sum_of_areas<T: Place>(nine: &[T], (axis, cut): (Axis, usize)) -> u64 {
    let mut boxes: Vec<Bbox> = nine.iter().map(T::bbox).collect();
    boxes.sort_by_key(|&bbox| axis.key(bbox));
    let (first, second) = boxes.split_at(cut);
    let area = |part: &[Bbox]| {
        let cover = part.iter().copied().reduce(Bbox::joined);
        cover.map_or(0, Bbox::area)
    };
    area(first) + area(second)
}

#[cfg(test)]
mod tests {
    use super::*;

    struct At(u32, Bbox);

    impl Place for At {
        fn bbox(&self) -> Bbox {
            self.1
        }
    }

    fn places(sides: &[[u32; 4]]) -> Vec<At> {
        let numbered = (0..).zip(sides);
        numbered
            .filter_map(|(number, &sides)| Some(At(number, Bbox::proper(sides)?)))
            .collect()
    }

    fn names(part: &[At]) -> Vec<u32> {
        part.iter().map(|place| place.0).collect()
    }

    #[test]
    fn least_growth_then_smaller_area_then_lower_place() {
        let spot = places(&[[5, 5, 5, 5]])[0].1;
        let growth = places(&[[0, 0, 4, 4], [0, 0, 9, 9], [5, 5, 6, 6]]);
        assert_eq!(choose(&growth, spot), 2);
        let smaller = places(&[[0, 0, 9, 9], [5, 0, 9, 9], [4, 4, 9, 9]]);
        assert_eq!(choose(&smaller, spot), 2);
        let equal = places(&[[9, 9, 9, 9], [4, 4, 6, 6], [5, 5, 7, 7]]);
        assert_eq!(choose(&equal, spot), 1);
    }

    #[test]
    fn equals_keep_their_order_and_the_earlier_candidate_wins() {
        let (first, second) = split(places(&[[3, 3, 3, 3]; 9]));
        assert_eq!(names(&first), [0, 1, 2, 3]);
        assert_eq!(names(&second), [4, 5, 6, 7, 8]);
    }

    #[test]
    fn lower_side_goes_before_upper_side() {
        let mut sides = [[10, 0, 10, 0]; 9];
        sides[8] = [2, 0, 9, 0];
        sides[4] = [2, 0, 8, 0];
        let (first, second) = split(places(&sides));
        assert_eq!(names(&first), [4, 8, 0, 1]);
        assert_eq!(names(&second), [2, 3, 5, 6, 7]);
    }

    #[test]
    fn the_smallest_sum_wins_on_either_axis_and_cut() {
        let row = |step: [u32; 2], low: usize| {
            let spot = |n: usize| u32::from(n >= low) * 100 + n as u32;
            let sides = |n| [spot(n) * step[0], spot(n) * step[1]];
            let spread = |n: usize| 7 * (n as u32 % 2);
            (0..9)
                .map(|n| {
                    let [x, y] = sides(n);
                    [x, y, x + spread(n) * step[1], y + spread(n) * step[0]]
                })
                .collect::<Vec<_>>()
        };
        for (step, low) in [([1, 0], 4), ([1, 0], 5), ([0, 1], 4), ([0, 1], 5)] {
            let (first, second) = split(places(&row(step, low)));
            assert_eq!(names(&first).len(), low);
            assert_eq!(names(&second).len(), 9 - low);
            assert!(names(&first).iter().all(|&name| (name as usize) < low));
        }
    }
}
