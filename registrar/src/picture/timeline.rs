//! A run as a picture: a row for each track, a column for the begin and for
//! each call, and bars for what lasts.

use super::bars::{self, Bar, Row, Spans, BESIDE, HEAD_BAR};
use super::heads::{self, Head};
use super::label::{full, Line};
use super::svg::{Canvas, Rect, CODE, EVENT, GREY, HEADING};
use super::{legend, marks};
use crate::draft::Draft;
use crate::run::Run;
use crate::standing::Standing;
use std::ops::Range;

const STYLE: &str = "\
.head{fill:#f1f4f7;stroke:#8b98a5}
.again{fill:#fff;stroke:#8b98a5;stroke-dasharray:1 2}
.refused{fill:#dcdcdc;stroke:#6b7280;stroke-dasharray:3 2}
.shade{fill:#6b7280;fill-opacity:.14}
.span{fill:#fff;stroke:#8b98a5}
.forward{fill:#d7e6f4;stroke:#1f3a5f}
.undoing{fill:url(#undoing-lines);stroke:#9a3412;stroke-dasharray:5 3}
.ground{fill:#fdf0e1}
.line{stroke:#efcfa6;stroke-width:2}
.held{fill:#fff;stroke:#9a3412;stroke-width:.8}
.edge{stroke:#c3cad1;fill:none}
.root{stroke:#5b6673;fill:none}
.complete{fill:#1a1a1a}
.given-up{stroke:#1a1a1a;stroke-width:1.6;fill:none}
.fired{fill:#fff;stroke:#9a3412;stroke-width:1.3}
.over{stroke:#1a1a1a;stroke-width:1.6;fill:none}
";

/// Lines at a slant behind what is being taken back.
const LINES: &str = "<defs><pattern id=\"undoing-lines\" width=\"7\" height=\"7\" \
    patternUnits=\"userSpaceOnUse\" patternTransform=\"rotate(45)\">\
    <rect class=\"ground\" width=\"7\" height=\"7\"/>\
    <path class=\"line\" d=\"M0 0V7\"/></pattern></defs>\n";

const EDGE: i32 = 12;
/// How far a hosted track's name is further in.
const INDENT: i32 = 16;
/// The height of a column's head.
const HEAD: i32 = 40;
/// The height of all that is above a band's rows.
const HEADS: i32 = 2 * HEAD_BAR + HEAD + 4;
/// Room below a band.
const BETWEEN: i32 = 16;

/// The picture of a run, as SVG, all calls side by side.
#[must_use]
pub fn timeline(draft: &Draft, run: &Run) -> String {
    banded(draft, run, i32::MAX)
}

/// The same in bands one below the other, none wider than that if a call and the
/// one before it fit. A band starts with the last call of the band above.
#[must_use]
pub fn banded(draft: &Draft, run: &Run, most: i32) -> String {
    let whole = Whole::of(draft, run);
    let mut canvas = Canvas::default();
    canvas.raw(LINES);
    let (mut right, mut y) = (0, EDGE);
    for band in whole.bands(most) {
        let corner = whole.draw(&mut canvas, band, y);
        right = right.max(corner.0);
        y = corner.1 + BETWEEN;
    }
    let size = legend::draw(&mut canvas, &legend::RUN, (EDGE, y), right.clamp(640, 1000));
    let said = format!("A run of {}", full(&draft.names.plan));
    let size = (right.max(size.0) + EDGE, size.1 + EDGE);
    canvas.finish("timeline", said.trim_end(), size, STYLE)
}

/// All columns of a run.
struct Whole<'a> {
    draft: &'a Draft,
    run: &'a Run<'a>,
    columns: Vec<&'a [Option<Standing>]>,
    heads: Vec<Head>,
    spans: Spans,
}

/// A stretch of columns, laid out.
struct Band {
    rows: Vec<Row>,
    bars: Vec<Bar>,
    /// The width of the tracks' names.
    names: i32,
    /// The left edge of each column, and the right edge of the last.
    edges: Vec<i32>,
}

impl<'a> Whole<'a> {
    fn of(draft: &'a Draft, run: &'a Run<'a>) -> Whole<'a> {
        let mut columns = bars::columns(run);
        let heads = heads::heads(draft, run);
        columns.resize(heads.len(), columns[columns.len() - 1]);
        let spans = Spans::of(run, heads.len());
        Whole {
            draft,
            run,
            columns,
            heads,
            spans,
        }
    }

    /// The columns of each band.
    fn bands(&self, most: i32) -> Vec<Range<usize>> {
        let edges = self.lay_out(0..self.heads.len(), 0).edges;
        let mut bands = Vec::new();
        let mut from = 0;
        for to in 1..=self.heads.len() {
            let room = most.saturating_sub(edges[0]);
            let full = to < self.heads.len() && edges[to + 1] - edges[from] > room;
            if to == self.heads.len() || (full && to - from > 1) {
                bands.push(from..to);
                from = to - 1;
            }
        }
        bands
    }

    fn lay_out(&self, band: Range<usize>, y: i32) -> Band {
        let columns = &self.columns[band.clone()];
        let rows = bars::rows(self.draft, columns, y + HEADS);
        let mut bars = self.spans.bars(self.draft, band.clone(), y);
        for &row in &rows {
            bars.extend(bars::of_track(self.draft, columns, row));
        }
        let names = names_width(self.draft, &rows);
        let mut widths: Vec<i32> = self.heads[band].iter().map(Head::room).collect();
        bars::widen(&mut widths, &bars);
        let mut edges = vec![EDGE + names];
        for width in widths {
            edges.push(edges[edges.len() - 1] + width);
        }
        Band {
            rows,
            bars,
            names,
            edges,
        }
    }

    /// Draws a band from this height on; returns its lower right corner.
    fn draw(&self, canvas: &mut Canvas, range: Range<usize>, y: i32) -> (i32, i32) {
        let band = self.lay_out(range.clone(), y);
        let Band { rows, edges, .. } = &band;
        let (first, right) = (y + HEADS, edges[edges.len() - 1]);
        let bottom = rows.last().map_or(first, |row| row.y + row.h);
        let heads = &self.heads[range.clone()];
        for (n, head) in heads.iter().enumerate() {
            let top = y + 2 * HEAD_BAR;
            let r = Rect::new(edges[n] + 1, top, edges[n + 1] - edges[n] - 2, HEAD - 2);
            draw_head(canvas, head, r, is_again(&range, n));
        }
        draw_rows(canvas, self.draft, rows, (EDGE, band.names, right));
        for bar in &band.bars {
            draw_bar(canvas, bar, edges);
        }
        for (n, head) in heads.iter().enumerate() {
            let width = edges[n + 1] - edges[n];
            let column = Rect::new(edges[n], first, width, bottom - first);
            if head.refused {
                canvas.rect("shade", column, 0);
            }
            let again = is_again(&range, n);
            let call = (range.start + n).checked_sub(1).filter(|_| !again);
            if let Some(done) = call.and_then(|call| self.run.done.get(call)) {
                marks::draw(canvas, self.draft, rows, done, edges[n]);
            }
            if head.ends && !again {
                marks::draw_over(canvas, column);
            }
        }
        (right, bottom)
    }
}

fn names_width(draft: &Draft, rows: &[Row]) -> i32 {
    let width = |row: &Row| {
        let name = Line::new(HEADING, &draft.names.tracks[row.track].name);
        name.width() + row.depth * INDENT + 2 * BESIDE
    };
    rows.iter().map(width).max().unwrap_or(0)
}

/// Whether a column of a band is the last one of the band above.
fn is_again(band: &Range<usize>, column: usize) -> bool {
    band.start > 0 && column == 0
}

fn draw_head(canvas: &mut Canvas, head: &Head, r: Rect, again: bool) {
    let class = match (head.refused, again) {
        (true, _) => "refused",
        (false, true) => "again",
        (false, false) => "head",
    };
    let printed = if again { GREY } else { CODE };
    let call = if class == "head" { EVENT } else { GREY };
    let left = r.x + BESIDE;
    canvas.open("call", &head.said);
    canvas.rect(class, r, 3);
    canvas.text(printed, (left, r.y + 3), &head.printed, r);
    Line::new(call, &head.call).draw(canvas, (left, r.y + 20), r);
    canvas.close();
}

/// The names of the tracks, and the lines between the rows.
fn draw_rows(canvas: &mut Canvas, draft: &Draft, rows: &[Row], (x, names, right): (i32, i32, i32)) {
    for row in rows {
        let class = if row.depth == 0 { "root" } else { "edge" };
        let left = x + row.depth * INDENT;
        canvas.path(class, &format!("M{left} {}H{right}", row.y));
        for level in 1..=row.depth {
            let guide = x + level * INDENT - INDENT / 2;
            canvas.path("edge", &format!("M{guide} {}v{}", row.y, row.h));
        }
        let name = &draft.names.tracks[row.track];
        canvas.open("lane", &format!("Track {}", full(name)));
        let within = Rect::new(left, row.y, names - (left - x), row.h);
        let style = if row.depth == 0 { HEADING } else { EVENT };
        Line::new(style, &name.name).draw(canvas, (left + 2, row.strip() + 3), within);
        canvas.close();
    }
    if let Some(last) = rows.last() {
        canvas.path("root", &format!("M{x} {}H{right}", last.y + last.h));
    }
}

/// A bar with its text at its left end, and again every so many columns.
fn draw_bar(canvas: &mut Canvas, bar: &Bar, edges: &[i32]) {
    const AGAIN: usize = 8;
    let r = bar.rect(edges);
    canvas.open("bar", &bar.said);
    canvas.rect(bar.class, r, 3);
    let top = r.y + (r.h - bar.line.style.line()) / 2;
    let room = bar.line.width() + 2 * BESIDE;
    let mut free = r.x;
    for column in (bar.from..=bar.to).step_by(AGAIN) {
        let x = edges[column] + 1;
        if x >= free && x + room <= r.right() {
            bar.line.draw(canvas, (x + BESIDE, top), r);
            free = x + room;
        }
    }
    canvas.close();
}
