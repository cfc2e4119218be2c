//! What tests of single asks share.

use reference::{example_a, Ask, Conflict, Survey};

/// All schedules of file A.
pub fn survey_a() -> Survey {
    Survey::new(&example_a())
}

pub fn ask(ceiling: u32, budget: u32) -> Ask {
    Ask { ceiling, budget }
}

pub fn conflict(bound: u32, choices: &[(u32, u32)]) -> Conflict {
    Conflict {
        bound,
        choices: choices.to_vec(),
    }
}
