//! Pictures of drawn units and links: no unit stands on another one, each stands above all that it depends on, and links meet no other unit.

#[path = "../../../tests/random.rs"]
#[allow(dead_code)]
mod random;

use crate::tally::Tally;
use lucarne::plan::layout::Edges;
use lucarne::show::graph::{places, Places, Size};
use random::Random;

const DRAWN: u64 = 300;

pub fn try_all(tally: &mut Tally) {
    for case in 0..DRAWN {
        let mut random = Random::for_case(7, case);
        let size = |random: &mut Random| Size { width: random.between(60, 300) as f64, height: random.between(40, 120) as f64 };
        let sizes: Vec<Size> = (0..random.between(1, 16)).map(|_| size(&mut random)).collect();
        let share = random.between(1, 8);
        let pairs = (1..sizes.len()).flat_map(|from| (0..from).map(move |to| (from, to)));
        let edges: Edges = pairs.filter(|_| random.between(0, 9) < share).map(|pair| (pair, Vec::new())).collect();
        let places = places(&sizes, &edges, &|_| 90.0);
        tally.count("links drawn", edges.len());
        tally.check(fits(&sizes, &edges, &places), "a picture is wrong", || format!("case {}: {:?} {:?}", case, sizes, places));
    }
    tally.must_have("links drawn");
}

fn fits(sizes: &[Size], edges: &Edges, places: &Places) -> bool {
    let frame = |unit: usize| {
        let ((x, y), size) = (places.boxes[unit], sizes[unit]);
        (x - size.width / 2.0, y, x + size.width / 2.0, y + size.height)
    };
    let frames: Vec<(f64, f64, f64, f64)> = (0..sizes.len()).map(frame).collect();
    let apart = |one: (f64, f64, f64, f64), other: (f64, f64, f64, f64)| one.2 <= other.0 || other.2 <= one.0 || one.3 <= other.1 || other.3 <= one.1;
    let none_meet = (0..sizes.len()).all(|one| (0..one).all(|other| apart(frames[one], frames[other])));
    let inside = frames.iter().all(|frame| frame.0 >= -0.01 && frame.1 >= -0.01 && frame.2 <= places.width + 0.01 && frame.3 <= places.height + 0.01);
    let above = edges.keys().all(|&(from, to)| frames[from].3 < frames[to].1);
    let straight = edges.keys().all(|link| link_fits(*link, &places.links[link].points, &frames));
    none_meet && inside && above && straight && places.links.len() == edges.len()
}

/// A link leaves its unit at the lower side and ends on the upper side of the other; where it passes a layer it meets none of the units there.
fn link_fits((from, to): (usize, usize), points: &[(f64, f64)], frames: &[(f64, f64, f64, f64)]) -> bool {
    let (first, last) = (points[0], points[points.len() - 1]);
    let on = |x: f64, frame: (f64, f64, f64, f64)| frame.0 < x && x < frame.2;
    let passes = points[1..points.len() - 1].iter().all(|&(x, y)| frames.iter().all(|frame| !on(x, *frame) || y < frame.1 - 0.01 || y > frame.3 + 0.01));
    on(first.0, frames[from]) && (first.1 - frames[from].3).abs() < 0.01 && on(last.0, frames[to]) && (last.1 - frames[to].1).abs() < 0.01 && passes
}
