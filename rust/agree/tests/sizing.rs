//! The proved sizing figure against the reference, on every size of file and on refused files.

use agree::{border_plans, edited, proved_verdict, random_plan, small_plans, smallest, Random};
use reference::{encode, example_a_words, read, sizing, Refusal};

/// The proved figure, or the refusal in the reference's words.
fn proved(words: &[u32]) -> Result<usize, Refusal> {
    ffi::sizing(words).map_err(|refusal| Refusal {
        number: refusal.number,
        place: refusal.place,
    })
}

fn expected(words: &[u32]) -> Result<usize, Refusal> {
    read(words).map(|plan| sizing(&plan))
}

#[test]
fn the_worked_figures_hold() {
    assert_eq!(proved(&example_a_words()), Ok(12));
    assert_eq!(proved(&encode(&smallest(52, 16))), Ok(268_435_455));
}

#[test]
fn every_number_of_weeks_and_units_has_the_figure_of_the_reference() {
    for weeks in 1..=52 {
        for units in 1..=16 {
            let words = encode(&smallest(weeks, units));
            let figure = sizing(&smallest(weeks, units));
            assert_eq!(proved(&words), Ok(figure), "W {weeks}, U {units}");
        }
    }
}

#[test]
fn the_figure_depends_on_weeks_and_units_alone() {
    for (case, plan) in border_plans().iter().enumerate() {
        let figure = proved(&encode(&smallest(plan.weeks, plan.units)));
        assert_eq!(proved(&encode(plan)), figure, "border plan {case}");
    }
}

#[test]
fn files_cut_short_have_their_refusal_and_no_figure() {
    for plan in small_plans() {
        let words = encode(&plan);
        for length in 0..words.len() {
            let refusal = Refusal {
                number: 1,
                place: length,
            };
            assert_eq!(proved(&words[..length]), Err(refusal));
        }
    }
}

#[test]
fn edited_files_have_their_figure_or_their_refusal() {
    let mut refused = 0;
    for seed in 0..5000 {
        let mut random = Random::seeded(seed);
        let plan = random_plan(&mut random, 6, 6);
        let words = edited(&encode(&plan), &plan, &mut random);
        assert_eq!(proved(&words), expected(&words), "seed {seed}");
        let verdict = proved_verdict(&words);
        assert_eq!(proved(&words).map(|_| ()), verdict, "seed {seed}");
        refused += usize::from(verdict.is_err());
    }
    assert!(refused > 1000 && refused < 5000);
}
