//! How the lines of a plan's text are written.

/// The words that a line begins with, and how each line is written.
pub const FORMS: [(&str, &str); 8] = [
    ("plan", "plan NAME [\"words\"]"),
    ("event", "event NUMBER NAME [\"words\"]"),
    ("retract", "retract NUMBER NAME [\"words\"]"),
    ("society", "society NUMBER NAME [\"words\"]"),
    ("track", "track [NUMBER] NAME [\"words\"] [in STATE]"),
    ("right", "right [NUMBER] SOCIETY move signal fire"),
    (
        "state",
        "state [NUMBER] NAME [\"words\"] [final] [when complete undo RETRACTION]",
    ),
    (
        "on",
        "on EVENT go STATE [undo RETRACTION [then STATE]] [step NUMBER] [from DAY to DAY [window NUMBER]]",
    ),
];

pub fn form(first: &str) -> &'static str {
    let known = FORMS.iter().find(|(word, _)| *word == first);
    known.map_or("", |(_, form)| form)
}
