//! The largest number of entries of a track: its path step by step, as the
//! calls for C give it, and when two paths are as good as each other.

use second::manager::{self, Answer};
use second::paths::{self, Largest};
use second::plan;

use crate::expected::{pair, Done};

/// A step beyond the path.
const NO_STEP: u16 = 65535;

/// Steps asked for beyond a path: the two next ones, and the greatest index.
const BEYOND: usize = 3;

/// The tracks that are asked about: all that there may be, and some that there
/// are not.
pub fn tracks() -> impl Iterator<Item = u16> {
    (0..=33).chain([65535])
}

/// What the second program shows: figure and length, the steps of its path and
/// those beyond; by each the refusal where there is one.
pub fn shown(plan: &[u8], track: u16) -> Done {
    let (answer, steps) = match manager::largest(plan, track) {
        Answer::Done(Largest { figure, path }) => {
            let answer = pair(figure, path.len() as u16);
            let steps = path.into_iter().chain([NO_STEP; BEYOND]);
            (answer, steps.map(|number| pair(number, 0)).collect())
        }
        Answer::Refused(refusal) => {
            let number = u64::from(refusal.number());
            (number, vec![number; BEYOND])
        }
    };
    Done {
        answer,
        words: Vec::new(),
        steps,
    }
}

/// Whether the proved calls show the figure of the second program, and a path
/// from the track's first state with so many entries. Where the plan is refused
/// or there is no such track nothing is free.
pub fn agree(plan: &[u8], track: u16, second: &Done, proved: &Done) -> bool {
    let taken = second.answer as u16 == 0;
    let track = usize::from(track);
    match plan::read(plan) {
        Ok(plan) if taken && track < plan.track_count() => {
            let figure = (second.answer >> 16) as u16;
            let fits = |path: &[u16]| {
                proved.answer == pair(figure, path.len() as u16)
                    && paths::entries_along(&plan, track, path) == Some(figure)
            };
            path(proved).map_or(false, |path| fits(&path)) && proved.words == second.words
        }
        _ => second == proved,
    }
}

/// The path of an answer's steps; `None` where a step is not one, or those
/// beyond are.
fn path(done: &Done) -> Option<Vec<u16>> {
    let length = done.steps.len().checked_sub(BEYOND)?;
    let (path, beyond) = done.steps.split_at(length);
    let ends = beyond.iter().all(|&step| step == pair(NO_STEP, 0));
    let number = |&step: &u64| {
        let number = (step >> 16) as u16;
        Some(number).filter(|_| step == pair(number, 0))
    };
    path.iter()
        .map(number)
        .collect::<Option<_>>()
        .filter(|_| ends)
}

#[cfg(test)]
mod tests {
    use super::*;
    use crate::case::Given;
    use crate::expected;
    use testing::samples::{sample, sample_records, step};

    fn answered(plan: &[u8], track: u16) -> Done {
        expected::answer(&Given::largest(plan.to_vec(), track))
    }

    /// An answer with this figure and this path.
    fn shown(figure: u16, path: &[u16]) -> Done {
        let steps = path.iter().copied().chain([NO_STEP; BEYOND]);
        Done {
            answer: pair(figure, path.len() as u16),
            words: Vec::new(),
            steps: steps.map(|number| pair(number, 0)).collect(),
        }
    }

    /// Whether an answer agrees with the second program's.
    fn fits(plan: &[u8], track: u16, proved: &Done) -> bool {
        agree(plan, track, &answered(plan, track), proved)
    }

    #[test]
    fn the_sample_s_answers_are_figure_length_and_path() {
        assert_eq!(answered(&sample(), 0), shown(2, &[0]));
        assert_eq!(answered(&sample(), 2), shown(2, &[3, 4]));
        assert_eq!(answered(&sample(), 3), shown(0, &[]));
        assert_eq!(answered(&sample(), 65535), shown(0, &[]));
    }

    #[test]
    fn another_path_with_as_many_entries_agrees() {
        assert!(fits(&sample(), 0, &shown(2, &[0])));
        assert!(fits(&sample(), 0, &shown(2, &[0, 1])));
        let mut forked = sample_records();
        forked.transitions.push(step(5, 1, 9, 6));
        let forked = forked.encode();
        assert!(fits(&forked, 2, &shown(2, &[3, 4])));
        assert!(fits(&forked, 2, &shown(2, &[5, 4])));
    }

    #[test]
    fn another_figure_or_no_such_path_differs() {
        let none: [(u16, &[u16]); 8] = [
            (1, &[0]),
            (3, &[0]),
            (2, &[]),
            (0, &[]),
            (2, &[1]),
            (2, &[3, 4]),
            (2, &[0, 0]),
            (2, &[0, 5]),
        ];
        for (figure, path) in none {
            assert!(!fits(&sample(), 0, &shown(figure, path)), "{path:?}");
        }
        assert!(!fits(&sample(), 1, &shown(0, &[])));
        assert!(!fits(&sample(), 3, &shown(1, &[])));
        assert!(!fits(&sample(), 3, &shown(0, &[0])));
    }

    #[test]
    fn a_step_that_is_not_one_differs() {
        let right = shown(2, &[3, 4]);
        assert!(fits(&sample(), 2, &right));
        for (at, step) in [(0, 29), (0, pair(3, 1)), (2, 0), (3, 29), (4, pair(4, 0))] {
            let mut wrong = right.clone();
            wrong.steps[at] = step;
            assert!(!fits(&sample(), 2, &wrong), "{at}");
        }
        for answer in [
            pair(2, 1),
            pair(2, 3),
            right.answer | 1,
            right.answer | 1 << 48,
        ] {
            let mut wrong = right.clone();
            wrong.answer = answer;
            assert!(!fits(&sample(), 2, &wrong), "{answer:#x}");
        }
    }

    #[test]
    fn a_refusal_stands_alone() {
        let mut plan = sample_records();
        plan.transitions[0].deviation = 0;
        let bytes = plan.encode();
        for track in tracks() {
            let done = answered(&bytes, track);
            assert_eq!((done.answer, &done.steps[..]), (29, &[29; BEYOND][..]));
            assert!(fits(&bytes, track, &done));
            assert!(!fits(&bytes, track, &shown(2, &[0])));
        }
        plan.rights[0].sum = 8;
        assert_eq!(answered(&plan.encode(), 0).answer, 27);
    }
}
