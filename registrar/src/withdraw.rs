//! What would be taken back if a society withdrew now: played on a copy of the
//! ledger by the proved calls, in rounds of tracks that go side by side.

mod text;

use crate::draft::Draft;
use crate::look;
use crate::phrase;
use crate::run::Run;
use crate::standing::{self, Mode, Standing};
use retraction::{Entry, Ledger, Limit, Refusal};

/// A withdrawal as it would go.
#[derive(Clone, Debug, PartialEq, Eq)]
pub struct Withdrawal {
    pub society: u16,
    /// The limit that the ledger is kept at.
    pub limit: Limit,
    /// Whether no track is forward even now: then there is no signal.
    pub already: bool,
    /// How many entries are held now.
    pub held: usize,
    /// The tracks after the signal.
    pub turned: Vec<Option<Standing>>,
    pub rounds: Vec<Round>,
    /// Ready tracks that nobody may fire.
    pub barred: Vec<u16>,
    /// The tracks at the end; all asleep where it is over.
    pub end: Vec<Option<Standing>>,
    /// Whether the ledger is over at the end.
    pub over: bool,
    /// Whether every root is undoing at the end, holds nothing and has no open
    /// scope.
    pub restored: bool,
}

/// Tracks that may be fired side by side, in any order.
pub type Round = Vec<Branch>;

/// What one track takes back in a round.
#[derive(Clone, Debug, PartialEq, Eq)]
pub struct Branch {
    pub track: u16,
    /// The society that fires it.
    pub society: u16,
    /// The tracks that had to be done before.
    pub after: Vec<u16>,
    /// What is fired, in this order.
    pub letters: Vec<Entry>,
    /// The tracks that wake where the last letter's deviation leads on.
    pub woken: Vec<u16>,
}

/// What would be taken back now if this society withdrew; refused as the signal
/// is, or as 20 where all has ended.
pub fn withdraw(draft: &Draft, run: &Run<'_>, society: u16) -> Result<Withdrawal, Refusal> {
    let mut ledger = run.ledger.clone();
    let now = standing::of(&ledger);
    let already = look::in_mode(&now, Mode::Forward).is_empty();
    if !already || ledger.is_over() {
        ledger.signal(society)?;
    }
    let turned = standing::of(&ledger);
    let mut play = Play {
        draft,
        ledger,
        societies: societies(draft, society),
        turned: &turned,
        barred: Vec::new(),
    };
    let mut rounds = Vec::new();
    loop {
        let round = play.round(rounds.is_empty());
        if round.is_empty() {
            break;
        }
        rounds.push(round);
    }
    let Play { ledger, barred, .. } = play;
    let end = standing::of(&ledger);
    Ok(Withdrawal {
        society,
        limit: ledger.limit(),
        already,
        held: standing::held(&now),
        rounds,
        barred,
        over: ledger.is_over(),
        restored: look::is_restored(&draft.records, &end),
        end,
        turned,
    })
}

/// A withdrawal that is refused, in words.
#[must_use]
pub fn refused(draft: &Draft, society: u16, refusal: Refusal) -> String {
    let first = phrase::society_first(draft, society);
    let why = match refusal {
        Refusal::Over => "All has ended, and nothing can be taken back any more.".to_string(),
        Refusal::NoRight => format!("{first} has the signal right nowhere."),
        _ => String::new(),
    };
    let society = phrase::society(draft, society);
    format!("The withdrawal by {society} is refused as {refusal}. {why}\n")
}

/// The society that withdraws, and then those of the rights records.
fn societies(draft: &Draft, first: u16) -> Vec<u16> {
    let mut all = vec![first];
    for grant in &draft.records.grants {
        if !all.contains(&grant.society) {
            all.push(grant.society);
        }
    }
    all
}

/// A withdrawal in the playing.
struct Play<'a> {
    draft: &'a Draft,
    ledger: Ledger<'a>,
    societies: Vec<u16>,
    turned: &'a [Option<Standing>],
    barred: Vec<u16>,
}

impl Play<'_> {
    /// Fires every track that is ready now, each as long as it is ready.
    fn round(&mut self, first: bool) -> Round {
        let ready: Vec<u16> = self.ledger.ready().collect();
        let mut round = Round::new();
        for track in ready {
            if self.barred.contains(&track) {
                continue;
            }
            match self.branch(track, first) {
                Some(branch) => round.push(branch),
                None => self.barred.push(track),
            }
        }
        round
    }

    /// Fires one track, if anybody may.
    fn branch(&mut self, track: u16, first: bool) -> Option<Branch> {
        let (society, letter) = self.fire_by_any(track)?;
        let mut letters = vec![letter];
        while self.ledger.ready().any(|ready| ready == track) {
            match self.ledger.fire(track, society) {
                Ok(letter) => letters.push(letter),
                Err(_) => break,
            }
        }
        let records = &self.draft.records;
        let after = if first {
            Vec::new()
        } else {
            look::open_scope(records, self.turned, track.into())
        };
        let onward = letters
            .last()
            .map_or(false, |entry| entry.deviation.is_some());
        let now = standing::of(&self.ledger);
        let woken = if onward {
            let forward = look::in_mode(&now, Mode::Forward).into_iter();
            let under = |&t: &u16| t != track && records.root_of(t.into()) == usize::from(track);
            forward.filter(under).collect()
        } else {
            Vec::new()
        };
        Some(Branch {
            track,
            society,
            after,
            letters,
            woken,
        })
    }

    /// The society that may fire a track, and what it fired.
    fn fire_by_any(&mut self, track: u16) -> Option<(u16, Entry)> {
        let societies = self.societies.clone();
        let mut societies = societies.into_iter();
        societies.find_map(|society| Some((society, self.ledger.fire(track, society).ok()?)))
    }
}

impl Withdrawal {
    /// How many letters would go out.
    #[must_use]
    pub fn letters(&self) -> usize {
        let branches = self.rounds.iter().flatten();
        branches.map(|branch| branch.letters.len()).sum()
    }

    /// Whether that is the exact number, whatever order they go out in: no track
    /// is forward after the signal, none may go another way, and each may be
    /// fired by somebody.
    #[must_use]
    pub fn is_exact(&self) -> bool {
        look::is_exact(&self.turned) && self.barred.is_empty() && !self.over
    }

    /// How many retractions are dropped unfired, since all ends.
    #[must_use]
    pub fn dropped(&self) -> usize {
        self.held - self.letters() - standing::held(&self.end)
    }

    /// The tracks that the signal left forward.
    #[must_use]
    pub fn forward(&self) -> Vec<u16> {
        look::in_mode(&self.turned, Mode::Forward)
    }
}
