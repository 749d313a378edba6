//! Each call of the bench answers, and leaves, on each side what it does on the others; and so does each program.

use bench::calls::CURVES;
use bench::programs::{Runner, run_all};
use bench::{CAPACITIES, SIDES, Side, sides_of};

#[test]
fn all_sides_answer_the_same_at_each_length() {
    for curve in CURVES {
        for capacity in CAPACITIES {
            let cases: Vec<_> = curve.cases(capacity, 1).collect();
            assert!(cases.len() > capacity / 3, "{} at {capacity} has few lengths", curve.title);
            for case in cases {
                let sides = sides_of(capacity, curve.call, &case);
                let lacks = |side: &Side| {
                    *side != Side::Arrayvec && (*side != Side::Proved || cfg!(proved)) && !sides.contains(side)
                };
                let lacking = SIDES.into_iter().find(lacks);
                assert_eq!(lacking, None, "the call `{}` is not there", curve.call);
            }
        }
    }
}

/// What each program gives, by its title.
#[derive(Default)]
struct Shown(Vec<(&'static str, Vec<String>)>);

impl Runner for Shown {
    fn begin(&mut self, title: &'static str) {
        self.0.push((title, Vec::new()));
    }

    fn see(&mut self, text: &str) {
        self.0.last_mut().expect("a program has begun").1.push(text.to_string());
    }
}

#[test]
fn each_program_gives_the_same_over_each_string() {
    let shown = |side| {
        let mut shown = Shown::default();
        run_all(side, &mut shown);
        shown.0
    };
    let by_std = shown(Side::String);
    for side in [Side::Crate, Side::Arrayvec] {
        for ((title, texts), (_, expected)) in shown(side).iter().zip(&by_std) {
            let differs = (0..texts.len().max(expected.len())).find(|at| texts.get(*at) != expected.get(*at));
            assert_eq!(differs, None, "{title}, over {}", side.name());
        }
    }
}
