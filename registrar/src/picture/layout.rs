//! Where the tracks, states and arrows of a plan stand. A track is a box with
//! its states in a row. The first step from a state to its right neighbour goes
//! straight there; every other step has a line of its own above the states,
//! from the upright line of the state that it leaves to that of the state it
//! leads to. Labels stand between two upright lines, so that nothing crosses
//! them.

use super::arrows::{arrows, Arrow, BESIDE};
use super::label::{grant_said, Line};
use super::label::{MOST_NAME, MOST_WORDS};
use super::svg::{heading_width, Rect, HEADING, SMALL, STATE};
use super::width::shorten;
use crate::draft::Draft;

/// Room inside the edges of a box.
const PAD: i32 = 12;
/// Room before the first state, for the mark of the start.
const START: i32 = 28;
/// The height of a state's head, and where an arrow meets it.
pub const HEAD: i32 = 34;
pub const MIDDLE: i32 = 17;
/// The least room between two states.
const GAP: i32 = 30;
/// Between hosted tracks, and between rows of arrows.
const BETWEEN: i32 = 8;
/// A state's upright line is at its middle, or at that of so much of it.
const NARROW: i32 = 120;

/// A track with its states and arrows.
#[derive(Clone, Debug)]
pub struct TrackBox {
    pub track: usize,
    pub rect: Rect,
    pub name: String,
    pub words: String,
    pub rights: Vec<String>,
    pub states: Vec<StateBox>,
    pub arrows: Vec<Arrow>,
}

/// A state with what it hosts.
#[derive(Clone, Debug)]
pub struct StateBox {
    pub state: usize,
    pub rect: Rect,
    /// The height of its name, and of the retraction under it.
    pub head: i32,
    pub name: String,
    /// The retraction that stands for its completed scope.
    pub complete: Option<Line>,
    pub hosted: Vec<TrackBox>,
    /// Its upright line: where it is, and its upper end if there is one.
    pub upright: (i32, Option<i32>),
}

/// All roots, one below the other, and the size of the picture.
#[must_use]
pub fn of(draft: &Draft) -> (Vec<TrackBox>, (i32, i32)) {
    let mut roots = Vec::new();
    let (mut right, mut y) = (0, PAD);
    for track in draft.records.roots() {
        let mut root = track_box(draft, track);
        root.shift(PAD, y);
        right = right.max(root.rect.right());
        y = root.rect.bottom() + PAD;
        roots.push(root);
    }
    (roots, (right + PAD, y))
}

fn track_box(draft: &Draft, track: usize) -> TrackBox {
    let states = draft.records.states_of(track);
    let mut it = TrackBox {
        track,
        rect: Rect::default(),
        name: shorten(&draft.names.tracks[track].name, MOST_NAME),
        words: shorten(&draft.names.tracks[track].words, MOST_WORDS),
        rights: rights(draft, track),
        states: states.map(|state| state_box(draft, state)).collect(),
        arrows: Vec::new(),
    };
    it.arrows = arrows(draft, &it.states);
    it.stand_apart();
    let top = it.head_height() + it.stack_rows() + BETWEEN;
    it.lower(top);
    it.give_rooms();
    it
}

fn rights(draft: &Draft, track: usize) -> Vec<String> {
    let over = draft.records.grants.iter();
    let over = over.filter(|grant| usize::from(grant.root) == track);
    over.map(|grant| grant_said(draft, grant)).collect()
}

fn state_box(draft: &Draft, state: usize) -> StateBox {
    let name = shorten(&draft.names.states[state].name, MOST_NAME);
    let replacement = draft.records.states[state].replacement;
    let complete = Some(draft.names.retractions.name(replacement)).filter(|_| replacement != 0);
    let complete = complete.map(|code| Line::undo(&format!("{code} when complete")));
    let mut width = 48.max(STATE.width(&name) + 2 * PAD);
    let mut bottom = HEAD;
    if let Some(line) = &complete {
        width = width.max(line.width() + 2 * PAD);
        bottom += line.style.line() + 2;
    }
    let head = bottom;
    let mut hosted = Vec::new();
    for track in draft.records.hosted_by(state) {
        let mut inner = track_box(draft, track);
        inner.shift(PAD, bottom);
        width = width.max(inner.rect.w + 2 * PAD);
        bottom = inner.rect.bottom() + BETWEEN;
        hosted.push(inner);
    }
    for track in &mut hosted {
        track.rect.w = width - 2 * PAD;
    }
    StateBox {
        state,
        rect: Rect::new(0, 0, width, bottom),
        head,
        name,
        complete,
        hosted,
        upright: (width.min(NARROW) / 2, None),
    }
}

impl TrackBox {
    /// Moves all of it.
    fn shift(&mut self, dx: i32, dy: i32) {
        self.rect = self.rect.moved(dx, dy);
        for state in &mut self.states {
            state.shift(dx, dy);
        }
        for arrow in &mut self.arrows {
            arrow.at = (arrow.at.0 + dy, arrow.at.1 + dx);
            arrow.room = arrow.room.moved(dx, dy);
        }
    }

    fn head_height(&self) -> i32 {
        let rights = self.rights.len() as i32 * SMALL.line();
        PAD + HEADING.line() + rights
    }

    fn head_width(&self) -> i32 {
        let first = heading_width(&self.name, &self.words);
        let rights = self.rights.iter().map(|right| SMALL.width(right));
        rights.fold(first, i32::max) + 2 * PAD
    }

    /// Gives each state its place from left to right, and the box its width.
    fn stand_apart(&mut self) {
        let mut x = PAD + START;
        let mut width = self.head_width();
        for i in 0..self.states.len() {
            self.states[i].shift(x, 0);
            let own = self.arrows.iter().filter(|a| a.gap().0 == i);
            let (plain, rows): (Vec<&Arrow>, Vec<&Arrow>) = own.partition(|a| a.plain);
            let need = |arrows: &[&Arrow]| arrows.iter().map(|a| a.need()).max().unwrap_or(0);
            let (right, upright) = (self.states[i].rect.right(), self.states[i].upright.0);
            width = width.max(right + PAD).max(upright + need(&rows));
            let next = self.states.get(i + 1).map_or(0, |next| next.upright.0);
            x = (right + GAP.max(need(&plain))).max(upright + need(&rows) - next);
        }
        self.rect.w = width;
    }

    /// Gives each arrow above the states its height, counted upwards from the
    /// states. Short ones are nearest to the states; those that share no state
    /// share a row. Returns the height of all rows.
    fn stack_rows(&mut self) -> i32 {
        let mut order: Vec<usize> = (0..self.arrows.len()).collect();
        order.retain(|&a| !self.arrows[a].plain);
        order.sort_by_key(|&a| (self.arrows[a].span().1 - self.arrows[a].span().0, a));
        let mut rows: Vec<Vec<usize>> = Vec::new();
        for a in order {
            let (low, high) = self.arrows[a].span();
            let apart = |&other: &usize| {
                let (l, h) = self.arrows[other].span();
                h < low || high < l
            };
            match rows.iter_mut().find(|row| row.iter().all(apart)) {
                Some(row) => row.push(a),
                None => rows.push(vec![a]),
            }
        }
        let mut bottom = 0;
        for row in rows {
            let heights = row.iter().map(|&a| self.arrows[a].label.heights());
            let (above, below) = heights.fold((9, 9), |m, h| (m.0.max(h.0), m.1.max(h.1)));
            for a in row {
                self.arrows[a].at.0 = -(bottom + below);
                self.arrows[a].room = Rect::new(0, -(bottom + below + above), 0, above + below);
            }
            bottom += above + below + BETWEEN;
        }
        bottom
    }

    /// Lowers states and arrows below the head, and closes the box around them.
    fn lower(&mut self, top: i32) {
        for state in &mut self.states {
            state.shift(0, top);
        }
        for arrow in &mut self.arrows {
            if arrow.plain {
                arrow.at.0 = top + MIDDLE;
            } else {
                arrow.at.0 += top - BETWEEN;
                arrow.room.y += top - BETWEEN;
            }
        }
        let labels = self.arrows.iter().filter(|a| a.plain);
        let labels = labels.map(|a| top + MIDDLE + a.label.heights().1);
        let states = self.states.iter().map(|s| s.rect.bottom());
        self.rect.h = states.chain(labels).max().unwrap_or(top) + PAD;
    }

    /// Gives each label its place, and each upright line its upper end.
    fn give_rooms(&mut self) {
        let width = self.rect.w;
        for arrow in &mut self.arrows {
            let (left, at_left) = arrow.gap();
            let next = self.states.get(left + 1);
            let x = if arrow.plain {
                let start = self.states[left].rect.right();
                let end = next.map_or(width, |next| next.rect.x);
                let height = arrow.label.heights();
                let top = arrow.at.0 - height.0;
                arrow.room = Rect::new(start, top, end - start, height.0 + height.1);
                start + (end - start - arrow.label.width()) / 2 - 2
            } else {
                let start = self.states[left].upright.0;
                let end = next.map_or(width, |next| next.upright.0);
                arrow.room.x = start;
                arrow.room.w = end - start;
                let out = arrow.need() - BESIDE - arrow.label.width();
                if at_left {
                    start + out
                } else {
                    end - BESIDE - arrow.label.width()
                }
            };
            arrow.at.1 = x;
            for end in [arrow.from, arrow.to].iter().filter(|_| !arrow.plain) {
                let upright = &mut self.states[*end].upright.1;
                *upright = Some(upright.map_or(arrow.top(), |y| y.min(arrow.top())));
            }
        }
    }
}

impl StateBox {
    fn shift(&mut self, dx: i32, dy: i32) {
        self.rect = self.rect.moved(dx, dy);
        self.upright.0 += dx;
        self.upright.1 = self.upright.1.map(|y| y + dy);
        for track in &mut self.hosted {
            track.shift(dx, dy);
        }
    }
}
