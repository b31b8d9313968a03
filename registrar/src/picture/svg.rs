//! Elements of an SVG picture. Coordinates are whole pixels, and every text
//! says which box it belongs to.

use super::width;
use std::fmt::Write;

/// A box in the picture.
#[derive(Clone, Copy, Debug, Default, PartialEq, Eq)]
pub struct Rect {
    pub x: i32,
    pub y: i32,
    pub w: i32,
    pub h: i32,
}

impl Rect {
    #[must_use]
    pub fn new(x: i32, y: i32, w: i32, h: i32) -> Rect {
        Rect { x, y, w, h }
    }

    /// The same elsewhere.
    #[must_use]
    pub fn moved(self, dx: i32, dy: i32) -> Rect {
        Rect::new(self.x + dx, self.y + dy, self.w, self.h)
    }

    /// The same with its edges so much further in.
    #[must_use]
    pub fn inset(self, by: i32) -> Rect {
        Rect::new(self.x + by, self.y + by, self.w - 2 * by, self.h - 2 * by)
    }

    #[must_use]
    pub fn right(self) -> i32 {
        self.x + self.w
    }

    #[must_use]
    pub fn bottom(self) -> i32 {
        self.y + self.h
    }
}

/// How a text is set.
#[derive(Clone, Copy, Debug, PartialEq, Eq)]
pub struct Style {
    pub class: &'static str,
    pub size: i32,
    pub bold: bool,
}

const fn style(class: &'static str, size: i32, bold: bool) -> Style {
    Style { class, size, bold }
}

pub const HEADING: Style = style("heading", 13, true);
pub const WORDS: Style = style("words", 12, false);
pub const STATE: Style = style("name", 13, false);
pub const EVENT: Style = style("event", 12, false);
pub const UNDO: Style = style("undo", 12, false);
pub const SMALL: Style = style("small", 11, false);
pub const CODE: Style = style("code", 12, true);
pub const GREY: Style = style("grey", 12, false);

/// All of them, for the style sheet.
pub const STYLES: [Style; 8] = [HEADING, WORDS, STATE, EVENT, UNDO, SMALL, CODE, GREY];

impl Style {
    /// The room that a text takes at most from left to right.
    #[must_use]
    pub fn width(self, text: &str) -> i32 {
        width::of(text, self.size, self.bold)
    }

    /// The height of a line of it.
    #[must_use]
    pub fn line(self) -> i32 {
        (self.size * 118 + 99) / 100
    }

    /// What of a line is below the letters' foot.
    fn below(self) -> i32 {
        (self.size * 24 + 99) / 100
    }

    /// The box that a text takes at most, by where its letters' foot begins.
    #[must_use]
    pub fn taken(self, x: i32, foot: i32, text: &str) -> Rect {
        let top = foot + self.below() - self.line();
        Rect::new(x, top, self.width(text), self.line())
    }
}

/// Room for the sign of a retraction, with the gap after it.
pub const HOOK: i32 = 16;

/// Room between a name and its words.
const AFTER: i32 = 8;

/// The room that a name in bold takes with its words.
#[must_use]
pub fn heading_width(name: &str, words: &str) -> i32 {
    HEADING.width(name) + AFTER + WORDS.width(words)
}

/// The elements of a picture in the order in which they are painted.
#[derive(Clone, Debug, Default)]
pub struct Canvas {
    out: String,
}

impl Canvas {
    pub fn rect(&mut self, class: &str, r: Rect, radius: i32) {
        let Rect { x, y, w, h } = r;
        let _ = write!(
            self.out,
            "<rect class=\"{class}\" x=\"{x}\" y=\"{y}\" width=\"{w}\" height=\"{h}\""
        );
        if radius > 0 {
            let _ = write!(self.out, " rx=\"{radius}\"");
        }
        self.out.push_str("/>\n");
    }

    /// Elements that are written out already.
    pub fn raw(&mut self, elements: &str) {
        self.out.push_str(elements);
    }

    pub fn path(&mut self, class: &str, d: &str) {
        let _ = writeln!(self.out, "<path class=\"{class}\" d=\"{d}\"/>");
    }

    pub fn dot(&mut self, class: &str, (x, y): (i32, i32), radius: i32) {
        let _ = writeln!(
            self.out,
            "<circle class=\"{class}\" cx=\"{x}\" cy=\"{y}\" r=\"{radius}\"/>"
        );
    }

    /// A text whose line has its upper left corner here, in the box that it must
    /// not leave.
    pub fn text(&mut self, style: Style, at: (i32, i32), text: &str, within: Rect) {
        self.line(style, "", at, &escape(text), within);
    }

    /// The same with the middle of its upper edge here.
    pub fn centred(&mut self, style: Style, at: (i32, i32), text: &str, within: Rect) {
        let middle = " text-anchor=\"middle\"";
        self.line(style, middle, at, &escape(text), within);
    }

    /// A name in bold with its words after it.
    pub fn heading(&mut self, at: (i32, i32), name: &str, words: &str, within: Rect) {
        let words = match words {
            "" => String::new(),
            words => format!(
                "<tspan class=\"{}\" dx=\"{AFTER}\">{}</tspan>",
                WORDS.class,
                escape(words)
            ),
        };
        let text = escape(name) + &words;
        self.line(HEADING, "", at, &text, within);
    }

    /// A line of text that is escaped already.
    fn line(&mut self, style: Style, anchor: &str, (x, top): (i32, i32), text: &str, within: Rect) {
        let foot = top + style.line() - style.below();
        let Rect { x: bx, y, w, h } = within;
        let _ = writeln!(
            self.out,
            "<text class=\"{}\" x=\"{x}\" y=\"{foot}\"{anchor} data-box=\"{bx} {y} {w} {h}\">{}</text>",
            style.class, text
        );
    }

    /// The sign of a retraction: an arrow that turns back, in a line of 15 pixels.
    pub fn hook(&mut self, (x, top): (i32, i32)) {
        let d = format!("M{} {}h5a3 3 0 0 1 0 6h-8m3-3l-3 3l3 3", x + 4, top + 4);
        self.path("hook", &d);
    }

    /// Opens a group that tells these words when pointed at.
    pub fn open(&mut self, class: &str, title: &str) {
        let title = escape(title);
        let _ = writeln!(self.out, "<g class=\"{class}\"><title>{title}</title>");
    }

    pub fn close(&mut self) {
        self.out.push_str("</g>\n");
    }

    /// The whole picture. What is drawn has an id, so that a page may show it
    /// again without a copy; the rules of its style hold in it alone.
    #[must_use]
    pub fn finish(self, name: &str, said: &str, (w, h): (i32, i32), style: &str) -> String {
        let said = escape(said);
        let mut rules = String::new();
        for rule in sheet().lines().chain(style.lines()) {
            let _ = writeln!(rules, ".{name} {rule}");
        }
        format!(
            "<svg xmlns=\"http://www.w3.org/2000/svg\" role=\"img\" aria-label=\"{said}\" \
             width=\"{w}\" height=\"{h}\" viewBox=\"0 0 {w} {h}\">\n<title>{said}</title>\n\
             <style>\n{rules}</style>\n<g id=\"{name}-drawing\" class=\"{name}\">\n{}</g>\n</svg>\n",
            self.out
        )
    }
}

/// The fonts of all pictures and pages.
pub const FONTS: &str = "Helvetica,Arial,'Liberation Sans','DejaVu Sans',sans-serif";

/// The style sheet of all texts, a rule a line.
fn sheet() -> String {
    let mut sheet = format!("text{{font-family:{FONTS};fill:#1a1a1a}}\n");
    for Style { class, size, bold } in STYLES {
        let weight = if bold { "bold" } else { "normal" };
        let fill = match class {
            "undo" => ";fill:#9a3412",
            "words" | "small" | "grey" => ";fill:#4a4f57",
            _ => "",
        };
        let font = format!("font-size:{size}px;font-weight:{weight}");
        let _ = writeln!(sheet, ".{class}{{{font}{fill}}}");
    }
    sheet + ".hook{fill:none;stroke:#9a3412;stroke-width:1.3}\n"
}

/// A text as it stands in an element or between double quotes. What XML has no
/// place for becomes a mark.
#[must_use]
pub fn escape(text: &str) -> String {
    let mut out = String::new();
    for c in text.chars() {
        match c {
            '&' => out.push_str("&amp;"),
            '<' => out.push_str("&lt;"),
            '>' => out.push_str("&gt;"),
            '"' => out.push_str("&quot;"),
            '\'' => out.push_str("&#39;"),
            '\t' | '\n' | '\r' => out.push(' '),
            '\u{0}'..='\u{1f}' | '\u{7f}'..='\u{9f}' | '\u{fffe}' | '\u{ffff}' => {
                out.push('\u{fffd}');
            }
            _ => out.push(c),
        }
    }
    out
}

#[cfg(test)]
mod tests {
    use super::*;

    #[test]
    fn texts_are_escaped() {
        assert_eq!(escape("a<b>&\"c'"), "a&lt;b&gt;&amp;&quot;c&#39;");
        assert_eq!(escape("a\tb\u{1}"), "a b\u{fffd}");
    }

    #[test]
    fn a_line_holds_its_letters() {
        for style in STYLES {
            let taken = style.taken(0, 100, "word");
            assert!(taken.h * 100 >= style.size * 117);
            assert_eq!(taken.bottom(), 100 + style.below());
        }
    }
}
