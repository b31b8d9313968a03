//! The rights of societies over roots, and whose call a call is.

use super::rng::Rng;
use second::plan::{Plan, Right, Rights, Track, MAX_RIGHTS, NONE};

/// The rights records of an accepted plan with these tracks. In so many percent
/// one society leads: it has every right over every root.
pub fn rights(rng: &mut Rng, tracks: &[Track], led: usize) -> Vec<Rights> {
    let roots = roots(tracks);
    let mut rights = if rng.chance(led) {
        led_by_one(rng, &roots)
    } else {
        match rng.below(100) {
            0..=44 => divided(rng, &roots),
            45..=84 => mixed(rng, &roots),
            85..=89 => Vec::new(),
            90..=95 => many(rng, &roots, MAX_RIGHTS),
            _ => {
                let count = rng.below(MAX_RIGHTS);
                many(rng, &roots, count)
            }
        }
    };
    rights.truncate(MAX_RIGHTS);
    if rng.chance(30) {
        rng.shuffle(&mut rights);
    }
    rights
}

/// The roots among the tracks.
pub fn roots(tracks: &[Track]) -> Vec<u16> {
    let numbers = 0..tracks.len() as u16;
    let root = |&t: &u16| tracks[usize::from(t)].host == NONE;
    numbers.filter(root).collect()
}

/// One society with every right, and now and then others with some.
fn led_by_one(rng: &mut Rng, roots: &[u16]) -> Vec<Rights> {
    let societies = societies(rng, 3);
    let all = |&root: &u16| Rights {
        society: societies[0],
        root,
        sum: Rights::ALL,
    };
    let mut rights: Vec<Rights> = roots.iter().map(all).collect();
    if rng.chance(30) {
        let others = rng.between(1, societies.len() - 1);
        rights.extend(pairs(rng, &societies[1..=others], roots, 40));
    }
    rights
}

/// Each root held by one of two or three societies.
fn divided(rng: &mut Rng, roots: &[u16]) -> Vec<Rights> {
    let count = rng.between(2, 3);
    let societies = societies(rng, count);
    let turn = rng.below(count);
    let held = |(n, &root): (usize, &u16)| Rights {
        society: societies[(n + turn) % count],
        root,
        sum: if rng.chance(90) {
            Rights::ALL
        } else {
            any_sum(rng)
        },
    };
    roots.iter().enumerate().map(held).collect()
}

/// Several societies, each with rights over some roots.
fn mixed(rng: &mut Rng, roots: &[u16]) -> Vec<Rights> {
    let count = rng.between(1, 4);
    let societies = societies(rng, count);
    pairs(rng, &societies, roots, 60)
}

/// Of all pairs so many percent, with all rights or some.
fn pairs(rng: &mut Rng, societies: &[u16], roots: &[u16], percent: usize) -> Vec<Rights> {
    let mut rights = Vec::new();
    for &society in societies {
        for &root in roots {
            if rng.chance(percent) {
                let all = rng.chance(50);
                let sum = if all { Rights::ALL } else { any_sum(rng) };
                rights.push(Rights { society, root, sum });
            }
        }
    }
    rights
}

/// So many records, each of another pair.
pub fn many(rng: &mut Rng, roots: &[u16], count: usize) -> Vec<Rights> {
    let from = rng.pick(&[0, 1, 65_500]).unwrap_or(0);
    let pairs = (0..).flat_map(|n: u16| roots.iter().map(move |&root| (n, root)));
    let pairs = pairs.take(if roots.is_empty() { 0 } else { count });
    let record = |(n, root): (u16, u16)| Rights {
        society: n.wrapping_add(from),
        root,
        sum: any_sum(rng) | any_sum(rng),
    };
    pairs.map(record).collect()
}

/// A sum from 1 to 7.
fn any_sum(rng: &mut Rng) -> u16 {
    rng.between(1, usize::from(Rights::ALL)) as u16
}

/// So many numbers of societies, at most five, 1 most often the first.
fn societies(rng: &mut Rng, count: usize) -> Vec<u16> {
    let mut numbers = vec![1, 2, 3, 0, 65_535];
    let other = rng.word();
    if rng.chance(20) && !numbers.contains(&other) {
        numbers[4] = other;
    }
    let fixed = usize::from(rng.chance(65));
    rng.shuffle(&mut numbers[fixed..]);
    numbers.truncate(count);
    numbers
}

/// The society of a call that would strike these tracks: mostly one with the
/// right over some of them, else one of the plan's, or a stranger.
pub fn caller(rng: &mut Rng, plan: &Plan, right: Right, tracks: &[usize]) -> u16 {
    match rng.below(1000) {
        0..=959 => entitled(rng, plan, right, tracks).unwrap_or_else(|| any(rng, plan)),
        960..=987 => any(rng, plan),
        _ => stranger(rng, plan),
    }
}

/// A society with the right over one of the tracks, often over most of them.
fn entitled(rng: &mut Rng, plan: &Plan, right: Right, tracks: &[usize]) -> Option<u16> {
    let over = |&s: &u16| tracks.iter().filter(|&&t| plan.allows(s, right, t)).count();
    let mut able = named(plan);
    able.retain(|s| over(s) > 0);
    if rng.chance(78) {
        able.iter().copied().max_by_key(over)
    } else {
        rng.pick(&able)
    }
}

/// Whether some society has the right over a track.
pub fn is_held(plan: &Plan, right: Right, track: usize) -> bool {
    let root = plan.root_of(track);
    let mut rights = plan.records().rights.iter();
    rights.any(|r| usize::from(r.root) == root && r.sum & right as u16 != 0)
}

/// The societies that a plan names.
pub fn named(plan: &Plan) -> Vec<u16> {
    let rights = plan.records().rights.iter();
    let mut named: Vec<u16> = rights.map(|r| r.society).collect();
    named.sort_unstable();
    named.dedup();
    named
}

/// A society that the plan names, if it names any.
pub fn any(rng: &mut Rng, plan: &Plan) -> u16 {
    rng.pick(&named(plan)).unwrap_or(1)
}

/// A society that the plan does not name.
pub fn stranger(rng: &mut Rng, plan: &Plan) -> u16 {
    let named = named(plan);
    let numbers = [0, 1, 2, 3, 4, 65_534, 65_535, rng.word()];
    let strangers: Vec<u16> = numbers
        .into_iter()
        .filter(|society| !named.contains(society))
        .collect();
    rng.pick(&strangers).unwrap_or(9)
}
