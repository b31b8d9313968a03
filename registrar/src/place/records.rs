//! Refusals 9 to 16, 25 and 27: the first record whose fields do not fit the
//! others.

use super::At;
use crate::day;
use crate::draft::Draft;
use crate::records::{kind, Grant, Step, Window};
use retraction::{Refusal, FIRST_DAY, LAST_DAY};

/// The most rights records, and the most tracks inside one another.
const MOST_GRANTS: usize = 64;
const MOST_DEEP: usize = 8;

/// The record that the refusal is about, and what is wrong with it.
pub(super) fn find(refusal: Refusal, draft: &Draft) -> Option<(At, String)> {
    let finder = Finder { draft };
    let records = &draft.records;
    let first = |kind: u16, count: usize, wrong: &dyn Fn(usize) -> Option<String>| {
        let wrong = |number| Some((At { kind, number }, wrong(number)?));
        (0..count).find_map(wrong)
    };
    let (tracks, states) = (records.tracks.len(), records.states.len());
    let steps = records.steps.len();
    match refusal {
        Refusal::State => first(kind::STATE, states, &|s| finder.state(s)),
        Refusal::Host => first(kind::TRACK, tracks, &|t| finder.host(t)),
        Refusal::FirstState => first(kind::TRACK, tracks, &|t| finder.stateless(t))
            .or_else(|| first(kind::STATE, states, &|s| finder.first_state(s))),
        Refusal::Hosting => first(kind::STATE, states, &|s| finder.hosting(s)),
        Refusal::Transition => first(kind::STEP, steps, &|x| finder.step(x)),
        Refusal::Deviation => first(kind::STEP, steps, &|x| finder.deviation(x)),
        Refusal::SameEvent => first(kind::STEP, steps, &|x| finder.same_event(x)),
        Refusal::Height => first(kind::TRACK, tracks, &|t| finder.height(t)),
        Refusal::Window => first(kind::WINDOW, records.windows.len(), &|w| finder.window(w)),
        Refusal::Rights => first(kind::GRANT, records.grants.len(), &|g| finder.grant(g)),
        _ => None,
    }
}

struct Finder<'a> {
    draft: &'a Draft,
}

impl Finder<'_> {
    /// 9
    fn state(&self, at: usize) -> Option<String> {
        let state = self.draft.records.states[at];
        if usize::from(state.track) >= self.draft.records.tracks.len() {
            let track = state.track;
            return Some(format!(
                "state {at} is one of track {track}, which is not there"
            ));
        }
        let last = state.last;
        let said = self.full(at as u16);
        let what = format!("state {said} has {last} in its final field: 1 is final, 0 is not");
        Some(what).filter(|_| last > 1)
    }

    /// 10
    fn host(&self, at: usize) -> Option<String> {
        let host = self.draft.records.tracks[at].host?;
        let track = self.track(at);
        let said = self.full(host);
        let other = match self.track_of(host) {
            Some(other) => usize::from(other),
            None => return Some(format!("track {track} is in {said}, which is not there")),
        };
        if other == at {
            return Some(format!("track {track} is in {said}, a state of its own"));
        }
        let before = self.track(other);
        let what = format!(
            "track {track} is in {said}, and track {before} comes after it: put {before} first"
        );
        Some(what).filter(|_| other > at)
    }

    /// 11, of a track
    fn stateless(&self, at: usize) -> Option<String> {
        let states = self.draft.records.states_of(at).count();
        Some(format!("track {} has no state", self.track(at))).filter(|_| states == 0)
    }

    /// 11, of a track's first state
    fn first_state(&self, at: usize) -> Option<String> {
        let state = self.draft.records.states[at];
        let track = usize::from(state.track);
        let is_first = self.draft.records.states_of(track).next() == Some(at);
        let (track, said) = (self.track(track), self.full(at as u16));
        let what =
            format!("track {track} starts in {said}, its first state by number, which is final");
        Some(what).filter(|_| is_first && state.last != 0)
    }

    /// 12
    fn hosting(&self, at: usize) -> Option<String> {
        let state = self.draft.records.states[at];
        let said = self.full(at as u16);
        match self.draft.records.hosted_by(at).next() {
            Some(hosted) if state.last != 0 => {
                let hosted = self.track(hosted);
                Some(format!(
                    "state {said} is final, but track {hosted} is in it"
                ))
            }
            None if state.replacement != 0 => {
                let code = self.draft.names.retractions.name(state.replacement);
                Some(format!(
                    "state {said} undoes '{code}' when complete, but no track is in it"
                ))
            }
            _ => None,
        }
    }

    /// 13
    fn step(&self, at: usize) -> Option<String> {
        let step = self.draft.records.steps[at];
        let (source, destination) = (self.full(step.source), self.full(step.destination));
        match (self.track_of(step.source), self.track_of(step.destination)) {
            (None, _) => Some(format!("step {at} leaves {source}, which is not there")),
            (_, None) => Some(format!(
                "step {at} goes to {destination}, which is not there"
            )),
            (one, other) if one != other => Some(format!(
                "step {at} goes from {source} to {destination}, which is in another track"
            )),
            _ if self.is_final(step.source) => {
                Some(format!("step {at} leaves {source}, which is final"))
            }
            _ if step.event == 0 => Some(format!("step {at} is on event 0; events begin at 1")),
            _ => None,
        }
    }

    /// 14
    fn deviation(&self, at: usize) -> Option<String> {
        let step = self.draft.records.steps[at];
        let deviation = step.deviation?;
        let track = self.track_of(step.source)?;
        let said = format!("step {at} deviates to {}", self.full(deviation));
        let hosted = self.draft.records.tracks.get(usize::from(track))?.host;
        match self.track_of(deviation) {
            None => Some(format!("{said}, which is not there")),
            Some(other) if other != track => Some(format!("{said}, which is in another track")),
            _ if self.is_final(deviation) => Some(format!("{said}, which is final")),
            _ if hosted.is_some() => {
                let (track, host) = (self.track(track.into()), self.full(hosted?));
                Some(format!(
                    "{said}, but track {track} is in {host}: only roots deviate"
                ))
            }
            _ if step.code == 0 => Some(format!("{said}, but it has no retraction")),
            _ => None,
        }
    }

    /// 15
    fn same_event(&self, at: usize) -> Option<String> {
        let way = |step: &Step| (step.source, step.event);
        let steps = &self.draft.records.steps;
        let step = steps[at];
        let number = steps[..at]
            .iter()
            .position(|other| way(other) == way(&step))?;
        let kind = kind::STEP;
        let earlier = At { kind, number }.said(self.draft);
        let source = self.full(step.source);
        let event = self.draft.names.events.name(step.event);
        Some(format!(
            "step {at} leaves {source} on event '{event}', and so does step {number}, {earlier}"
        ))
    }

    /// 16
    fn height(&self, at: usize) -> Option<String> {
        let records = &self.draft.records;
        let mut deep = 1;
        let mut track = at;
        while let Some(host) = records.host_track(track).filter(|&host| host < track) {
            track = host;
            deep += 1;
        }
        let said = self.track(at);
        let what = format!("track {said} is nested {deep} deep, and {MOST_DEEP} is the most");
        Some(what).filter(|_| deep > MOST_DEEP)
    }

    /// 25
    fn window(&self, at: usize) -> Option<String> {
        let windows = &self.draft.records.windows;
        let Window { step, first, last } = windows[at];
        let (from, to) = (day::text(first), day::text(last));
        let (begin, end) = (day::text(FIRST_DAY), day::text(LAST_DAY));
        if usize::from(step) >= self.draft.records.steps.len() {
            Some(format!(
                "window {at} is one of step {step}, which is not there"
            ))
        } else if first < FIRST_DAY {
            Some(format!("window {at} begins on day {from}, before {begin}"))
        } else if last > LAST_DAY {
            Some(format!("window {at} ends on day {to}, after {end}"))
        } else if last < first {
            Some(format!(
                "window {at} ends on {to}, before it begins on {from}"
            ))
        } else {
            let number = windows[..at].iter().position(|other| other.step == step)?;
            let kind = kind::WINDOW;
            let earlier = At { kind, number }.said(self.draft);
            let said = format!("window {at} is one of step {step}, and so is window {number}");
            Some(format!("{said}, {earlier}"))
        }
    }

    /// 27
    fn grant(&self, at: usize) -> Option<String> {
        let grants = &self.draft.records.grants;
        let Grant { society, root, sum } = grants[at];
        let who = self.draft.names.societies.name(society);
        let track = self.track(root.into());
        let said = format!("the right of society '{who}'");
        let root_track = self.draft.records.tracks.get(usize::from(root));
        let pair = |grant: &Grant| (grant.society, grant.root);
        let twin = grants[..at]
            .iter()
            .position(|other| pair(other) == (society, root));
        match (root_track, twin) {
            (None, _) => Some(format!("{said} is over track {root}, which is not there")),
            (Some(track_record), _) if track_record.host.is_some() => {
                let host = self.full(track_record.host?);
                Some(format!(
                    "{said} is over track {track}, which is in {host}: only roots have rights"
                ))
            }
            _ if sum == 0 => Some(format!(
                "{said} over track {track} has none of move, signal, fire"
            )),
            _ if sum > 7 => Some(format!(
                "{said} over track {track} has the sum {sum}, and 7 is the most"
            )),
            (_, Some(number)) => {
                let kind = kind::GRANT;
                let earlier = At { kind, number }.said(self.draft);
                Some(format!(
                    "{said} over track {track} stands twice: {earlier} has it already"
                ))
            }
            _ if at >= MOST_GRANTS => Some(format!(
                "this is a right too many: {MOST_GRANTS} are the most"
            )),
            _ => None,
        }
    }

    fn track_of(&self, state: u16) -> Option<u16> {
        let state = self.draft.records.states.get(usize::from(state))?;
        Some(state.track)
    }

    fn is_final(&self, state: u16) -> bool {
        let state = self.draft.records.states.get(usize::from(state));
        state.map_or(false, |state| state.last != 0)
    }

    fn track(&self, track: usize) -> String {
        format!("'{}'", self.draft.track(track as u16))
    }

    /// A state with its track, or its number where there is none.
    fn full(&self, state: u16) -> String {
        match self.track_of(state) {
            Some(track) => {
                format!("'{}.{}'", self.draft.track(track), self.draft.state(state))
            }
            None => format!("state {state}"),
        }
    }
}
