//! What several tests about pictures share: reading a picture's elements, and
//! the plans and runs that are drawn.
#![allow(dead_code)]

use registrar::draft::Draft;
use registrar::journal;
use registrar::picture::svg::{Rect, STYLES};
use registrar::records::Records;
use registrar::run::Run;
use retraction::{Limit, Plan};
use testing::generate::rng::Rng;
use testing::generate::{journals, plans};

/// An element with its attributes, and the text that stands right in it.
#[derive(Clone, Debug, Default)]
pub struct Element {
    pub tag: String,
    pub attributes: Vec<(String, String)>,
    pub text: String,
    /// The element that it stands in.
    pub parent: Option<usize>,
}

impl Element {
    pub fn get(&self, name: &str) -> Option<&str> {
        let found = self.attributes.iter().find(|(known, _)| known == name);
        found.map(|(_, value)| value.as_str())
    }

    pub fn class(&self) -> &str {
        self.get("class").unwrap_or("")
    }

    fn number(&self, name: &str) -> i32 {
        self.get(name)
            .unwrap_or("0")
            .parse()
            .expect("a whole number")
    }

    /// The box of a rect element.
    pub fn rect(&self) -> Rect {
        let [x, y, w, h] = ["x", "y", "width", "height"].map(|name| self.number(name));
        Rect { x, y, w, h }
    }
}

/// The elements of a picture or a page, in order; what is not well-formed fails.
pub fn elements(document: &str) -> Vec<Element> {
    let mut found: Vec<Element> = Vec::new();
    let mut open: Vec<usize> = Vec::new();
    let mut rest = document;
    if let Some(after) = rest.strip_prefix("<!DOCTYPE html>") {
        rest = after;
    }
    while let Some(start) = rest.find('<') {
        let text = unescaped(&rest[..start]);
        if let Some(&parent) = open.last() {
            found[parent].text += &text;
        } else {
            assert!(text.trim().is_empty(), "text outside: {text:?}");
        }
        let end = start + rest[start..].find('>').expect("a tag ends");
        let tag = &rest[start + 1..end];
        rest = &rest[end + 1..];
        if let Some(name) = tag.strip_prefix('/') {
            let last = open.pop().expect("an open element");
            assert_eq!(found[last].tag, name, "the wrong element ends");
            continue;
        }
        let mut element = element(tag.trim_end_matches('/'));
        element.parent = open.last().copied();
        if !tag.ends_with('/') {
            open.push(found.len());
        }
        found.push(element);
    }
    assert!(
        open.is_empty() && rest.trim().is_empty(),
        "elements left open"
    );
    found
}

fn element(tag: &str) -> Element {
    let (name, mut rest) = tag.split_at(tag.find(' ').unwrap_or(tag.len()));
    let mut element = Element {
        tag: name.to_string(),
        ..Element::default()
    };
    while !rest.is_empty() {
        rest = rest.strip_prefix(' ').expect("a blank before an attribute");
        let (key, after) = rest.split_once("=\"").expect("an attribute");
        let (value, after) = after.split_once('"').expect("a closing quote");
        assert!(element.get(key).is_none(), "{key} twice");
        let value = unescaped(value);
        element.attributes.push((key.to_string(), value));
        rest = after;
    }
    element
}

fn unescaped(text: &str) -> String {
    let mut out = String::new();
    let mut parts = text.split('&');
    out += parts.next().unwrap_or("");
    for part in parts {
        let (name, rest) = part.split_once(';').expect("an entity ends");
        let known = [
            ("amp", '&'),
            ("lt", '<'),
            ("gt", '>'),
            ("quot", '"'),
            ("#39", '\''),
        ];
        let entity = known.iter().find(|(known, _)| *known == name);
        out.push(entity.expect("a known entity").1);
        out += rest;
    }
    out
}

/// A text of a picture: where it is at most, and the box that it belongs to.
#[derive(Clone, Debug)]
pub struct Text {
    pub text: String,
    pub taken: Rect,
    pub within: Rect,
}

/// The texts of a picture.
pub fn texts(elements: &[Element]) -> Vec<Text> {
    let mut texts = Vec::new();
    for (n, element) in elements.iter().enumerate() {
        if element.tag != "text" {
            continue;
        }
        let style = |class: &str| *STYLES.iter().find(|s| s.class == class).expect("a style");
        let (x, foot) = (element.number("x"), element.number("y"));
        let mut taken = style(element.class()).taken(x, foot, &element.text);
        let mut text = element.text.clone();
        for inner in elements.iter().filter(|inner| inner.parent == Some(n)) {
            taken.w += inner.number("dx") + style(inner.class()).width(&inner.text);
            text = text + " " + &inner.text;
        }
        if element.get("text-anchor") == Some("middle") {
            taken.x -= (taken.w + 1) / 2;
        }
        let within = element.get("data-box").expect("a box").split(' ');
        let within: Vec<i32> = within.map(|n| n.parse().expect("a number")).collect();
        let within = Rect::new(within[0], within[1], within[2], within[3]);
        texts.push(Text {
            text,
            taken,
            within,
        });
    }
    texts
}

/// Whether one box is inside the other.
pub fn inside(inner: Rect, outer: Rect) -> bool {
    inner.x >= outer.x
        && inner.y >= outer.y
        && inner.right() <= outer.right()
        && inner.bottom() <= outer.bottom()
}

/// Whether two boxes have no point in common but edges.
pub fn apart(one: Rect, other: Rect) -> bool {
    one.right() <= other.x
        || other.right() <= one.x
        || one.bottom() <= other.y
        || other.bottom() <= one.y
}

/// A draft of a plan's bytes, which are accepted.
pub fn draft(bytes: &[u8]) -> Draft {
    assert!(Plan::read(bytes).is_ok());
    Draft::of_records(Records::decode(bytes).expect("an accepted plan's records"))
}

/// A generated plan of at most so many tracks.
pub fn generated(seed: u64, limit: usize) -> Draft {
    draft(&plans::bytes(&mut Rng::for_case(seed, 71, 0), limit))
}

/// A generated plan of 32 tracks with at least so many steps.
pub fn full(steps: usize) -> Draft {
    let plans = (0..).map(|seed| plans::records_of(&mut Rng::new(seed), 32));
    let mut plans = plans.filter(|plan| plan.transitions.len() >= steps);
    draft(&plans.next().expect("a full plan").encode())
}

/// A generated plan with the calls of a journal.
pub fn generated_run(seed: u64, limit: usize) -> (Draft, Vec<u8>) {
    let mut rng = Rng::for_case(seed, 72, 0);
    loop {
        let case = journals::case(&mut rng, limit);
        if Plan::read(&case.plan[..]).is_ok() && case.journal.len() < 2000 {
            return (draft(&case.plan), case.journal);
        }
    }
}

/// Runs a journal's bytes, and hands over the run.
pub fn with_run<T>(draft: &Draft, journal: &[u8], then: impl FnOnce(&Run) -> T) -> T {
    let plan = Plan::read(draft.records.encode()).expect("an accepted plan");
    let (calls, broken) = journal::decode(journal);
    then(&Run::of(&plan, Limit::Main, &calls, broken))
}
