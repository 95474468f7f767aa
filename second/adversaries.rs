//! Sound files, each with an adversary that watches the vote while the file is
//! made: it knows what each controller is about to hear, and forges so that
//! counts come to lie exactly at a threshold or one below it.

use std::collections::HashSet;

use crate::files::{Draft, LONGEST, line_width};
use crate::models::{Class, Counts, Model, Set};
use crate::rng::Rng;
use crate::runs::{MOST_CELLS, Opening, Place, Round, Run};
use crate::values::{Cell, Kind, Value};
use crate::votes::{Stage, column_of, holders};

/// What kind of vote it is, and how long.
#[derive(Clone, Copy, Debug)]
pub struct Frame {
    pub kind: Kind,
    pub model: Model,
    pub n: usize,
    pub t: usize,
    pub rounds: usize,
}

/// What is proposed.
#[derive(Clone, Copy, PartialEq, Debug)]
pub enum Proposals {
    Agreed,
    /// About as many hold the first value as a proposing round asks for.
    Edge,
    Halves,
    Mixed,
    Wild,
}

/// Who is seated.
#[derive(Clone, Copy, PartialEq, Debug)]
pub enum Seating {
    Nobody,
    Staying,
    Wandering,
    /// As many as may be, and always others than the round before.
    Marching,
    /// Each phase's coordinator, so that nothing settles the vote.
    Hunting,
}

/// What is forged.
#[derive(Clone, Copy, PartialEq, Debug)]
pub enum Forging {
    Nothing,
    /// Any value anywhere.
    Noise,
    /// One figure to some receivers, another to the others.
    Equivocation,
    /// Counts at a threshold for some receivers, one below it for the others.
    Thresholds,
    /// Each phase's coordinator keeps the block split until the last.
    Splitting,
}

/// How the adversary goes about it.
#[derive(Clone, Copy, Debug)]
pub struct Style {
    pub proposals: Proposals,
    pub seating: Seating,
    pub forging: Forging,
    /// How many lines the file may have.
    pub lines: usize,
    /// Nothing is forged before this round.
    pub from: usize,
}

type Forgery = (Place, Cell);

/// A sound file in this frame, which must be resilient.
pub fn sound(frame: Frame, style: Style, rng: &Rng) -> Draft {
    let values = palette(frame.kind, rng);
    let proposals = propose(frame, style.proposals, &values, rng);
    let mut set = initial_set(frame, style.seating, rng);
    let mut draft = Draft::new(frame.kind, frame.model, frame.t, &proposals, set);
    let opening = Opening::of(frame.t, &proposals, set);
    let mut run =
        Run::open(frame.model, frame.kind, MOST_CELLS, &opening).expect("the frame is resilient");
    let fitting =
        (LONGEST - draft.bytes().len()).saturating_sub(2 * frame.rounds) / line_width(frame.kind);
    let most_lines = style.lines.min(fitting);
    for number in 0..frame.rounds {
        set = next_set(frame, style.seating, number, set, rng);
        let mut round = run.seat(set).ok().expect("the model allows the move");
        let wanted = if number < style.from {
            Vec::new()
        } else {
            forgeries(&round, style.forging, &values, rng)
        };
        for (place, cell) in wanted {
            if draft.lines.len() < most_lines && round.forge(place, cell).is_ok() {
                draft.add_line(frame.kind, number, place, cell);
            }
        }
        run = round.close();
        draft.add_round(set);
    }
    draft
}

/// The few values of one file or script. The first is the one the adversary counts.
pub fn palette(kind: Kind, rng: &Rng) -> Vec<Value> {
    let mut values = match kind {
        Kind::Setpoint => setpoints(rng),
        Kind::Sheet => sheets(rng),
    };
    let start = rng.below(values.len());
    values.rotate_left(start);
    values.truncate(rng.between(2, 4));
    values
}

/// Values at the edges of the rule and near one another, byte by byte too.
fn setpoints(rng: &Rng) -> Vec<Value> {
    let base = rng.between(201, 643) as u16;
    let numbers = [
        base + 1,
        base,
        base + 256,
        200,
        900,
        400,
        401,
        base - 1,
        rng.between(200, 900) as u16,
    ];
    numbers.into_iter().filter_map(Value::setpoint).collect()
}

fn sheets(rng: &Rng) -> Vec<Value> {
    let mut rest = rng.pick(&[1000, 1000, 999, 600]);
    let mut shares = [0; 4];
    for share in &mut shares[..3] {
        *share = rng.below(rest + 1) as u16;
        rest -= usize::from(*share);
    }
    shares[3] = rest as u16;
    rng.shuffle(&mut shares);
    let [a, b, c, d] = shares;
    let all = [
        // The same low bytes as the next, unless that takes more than there is.
        [a.wrapping_sub(256), b.wrapping_add(256), c, d],
        shares,
        [b, a, c, d],
        [a, b, d, c],
        [250; 4],
        [a, b, c, 0],
        [1000, 0, 0, 0],
        [0; 4],
        [250, 250, 250, 249],
    ];
    all.into_iter().filter_map(Value::sheet).collect()
}

pub fn any_value(kind: Kind, rng: &Rng) -> Value {
    let values = palette(kind, rng);
    rng.pick(&values)
}

fn propose(frame: Frame, proposals: Proposals, values: &[Value], rng: &Rng) -> Vec<Value> {
    let Frame { n, kind, .. } = frame;
    let Counts { b, l, .. } = frame.model.counts(frame.t);
    let holding = match proposals {
        Proposals::Agreed => n,
        Proposals::Edge => (n + 1).saturating_sub(b + rng.below(l + 3)).min(n),
        Proposals::Halves => n / 2,
        Proposals::Mixed => return (0..n).map(|_| rng.pick(values)).collect(),
        Proposals::Wild => return (0..n).map(|_| any_value(kind, rng)).collect(),
    };
    let mut all = vec![values[1]; n];
    all[..holding].fill(values[0]);
    rng.shuffle(&mut all);
    all
}

fn initial_set(frame: Frame, seating: Seating, rng: &Rng) -> Set {
    match seating {
        Seating::Nobody => Set::EMPTY,
        // Staying and marching show most with as many as may be.
        Seating::Staying | Seating::Marching => {
            rng.some_below(frame.n, frame.t).into_iter().collect()
        }
        Seating::Wandering | Seating::Hunting => some_set(frame, rng),
    }
}

fn some_set(frame: Frame, rng: &Rng) -> Set {
    let size = rng.pick(&[0, frame.t, frame.t, rng.between(0, frame.t)]);
    rng.some_below(frame.n, size).into_iter().collect()
}

/// The set that the seating wants next, or the one before where the model does
/// not allow the move.
fn next_set(frame: Frame, seating: Seating, round: usize, before: Set, rng: &Rng) -> Set {
    let wanted = wanted_set(frame, seating, round, before, rng);
    if frame.model.allows(before, wanted) {
        wanted
    } else {
        before
    }
}

fn wanted_set(frame: Frame, seating: Seating, round: usize, before: Set, rng: &Rng) -> Set {
    let Frame { n, t, .. } = frame;
    match seating {
        Seating::Nobody => Set::EMPTY,
        Seating::Staying => before,
        Seating::Wandering if rng.percent(40) => before,
        Seating::Wandering => some_set(frame, rng),
        Seating::Marching => {
            let mut others: Vec<usize> = (0..n).filter(|&i| !before.has(i)).collect();
            rng.shuffle(&mut others);
            others.into_iter().take(t).collect()
        }
        Seating::Hunting if round >= 3 * n => some_set(frame, rng),
        Seating::Hunting => hunting_set(frame, round, rng),
    }
}

/// The coordinator from its collecting round on, and others by chance.
fn hunting_set(frame: Frame, round: usize, rng: &Rng) -> Set {
    let Frame { n, t, .. } = frame;
    let coordinator = round / 3;
    if t == 0 || round.is_multiple_of(3) && rng.percent(60) {
        return some_set(frame, rng);
    }
    let mut others = rng.some_below(n, n);
    others.retain(|&other| other != coordinator);
    others.truncate(rng.between(0, t - 1));
    others.into_iter().chain([coordinator]).collect()
}

/// The lines of one round, in their order.
fn forgeries(round: &Round, forging: Forging, values: &[Value], rng: &Rng) -> Vec<Forgery> {
    let forging = match forging {
        // A change of manners now and then.
        Forging::Thresholds => rng.weighted(&[
            (76, Forging::Thresholds),
            (8, Forging::Noise),
            (8, Forging::Equivocation),
            (8, Forging::Nothing),
        ]),
        other => other,
    };
    let groups = groups(round, forging, rng);
    let mut lines: Vec<Forgery> = groups
        .iter()
        .flat_map(|group| match forging {
            Forging::Nothing => Vec::new(),
            Forging::Noise => noise(round, group, values, rng),
            Forging::Equivocation => equivocate(round, group, values, rng),
            Forging::Thresholds => Sculptor::new(round, group, values, rng).forge(rng),
            Forging::Splitting => Sculptor::of_two(round, group, values, rng).split(rng),
        })
        .collect();
    if rng.percent(20) {
        add_emptied(&mut lines, &groups, round.stage.columns(round.quorums().n));
    }
    rng.shuffle(&mut lines);
    with_decoys(lines, values, rng)
}

/// Lines that empty the places for which there are none.
fn add_emptied(lines: &mut Vec<Forgery>, groups: &[Group], columns: usize) {
    let taken: HashSet<Place> = lines.iter().map(|&(place, _)| place).collect();
    for group in groups {
        for &sender in &group.senders {
            let places = (0..columns).map(|column| group.place(sender, column));
            lines.extend(
                places
                    .filter(|place| !taken.contains(place))
                    .map(|place| (place, None)),
            );
        }
    }
}

/// Puts lines in front that the others replace.
fn with_decoys(lines: Vec<Forgery>, values: &[Value], rng: &Rng) -> Vec<Forgery> {
    let chance = rng.pick(&[0, 0, 20, 60]);
    let replaced: Vec<Forgery> = lines
        .iter()
        .filter(|_| rng.percent(chance))
        .map(|&(place, _)| (place, some_cell(values, rng)))
        .collect();
    [replaced, lines].concat()
}

fn some_cell(values: &[Value], rng: &Rng) -> Cell {
    if rng.percent(20) {
        None
    } else {
        Some(rng.pick(values))
    }
}

/// Senders whose forged cells one receiver hears.
struct Group {
    receiver: usize,
    senders: Vec<usize>,
    /// Whether this receiver is one of those at whom the adversary aims.
    favoured: bool,
}

/// The uniform senders, who speak to all at once, and then, for each receiver,
/// the free ones. The favoured receivers are as many as some count needs.
fn groups(round: &Round, forging: Forging, rng: &Rng) -> Vec<Group> {
    let n = round.quorums().n;
    let of_class =
        |class| -> Vec<usize> { (0..n).filter(|&i| round.classes[i] == class).collect() };
    let aim = aim(round, forging, rng).min(n);
    let mut listeners: Vec<usize> = rng.some_below(n, n);
    // Who is seated forgets what it hears.
    listeners.sort_by_key(|&listener| round.after.has(listener));
    let favoured: Set = listeners.into_iter().take(aim).collect();
    let uniform = Group {
        receiver: 0,
        senders: of_class(Class::Uniform),
        favoured: rng.percent(50),
    };
    let free = of_class(Class::Free);
    let each = (0..n).map(|receiver| Group {
        receiver,
        senders: free.clone(),
        favoured: favoured.has(receiver),
    });
    [uniform]
        .into_iter()
        .chain(each)
        .filter(|group| !group.senders.is_empty())
        .collect()
}

/// How many receivers are favoured.
fn aim(round: &Round, forging: Forging, rng: &Rng) -> usize {
    let n = round.quorums().n;
    let Counts { b, e, l } = round.quorums().counts;
    match (forging, round.stage) {
        // Too few on either side for the next proposing round, so that the split lasts.
        (Forging::Splitting, Stage::Deciding { phase }) if phase + 1 < n => {
            rng.pick(&[(n - 1) / 2, n / 2])
        }
        (Forging::Splitting, Stage::Deciding { .. }) => rng.between(n - b - 1, n - b + 1),
        // So many will send the value in the collecting round.
        (Forging::Thresholds, Stage::Proposing) if rng.percent(70) => {
            rng.pick(&[l, l + 1, l + e, l + e + 1])
        }
        _ => rng.pick(&[l, l + 1, l + e, l + e + 1, n - b, n - b - 1, n / 2, n]),
    }
}

impl Group {
    fn place(&self, sender: usize, column: usize) -> Place {
        Place {
            sender,
            receiver: self.receiver,
            column,
        }
    }
}

fn noise(round: &Round, group: &Group, values: &[Value], rng: &Rng) -> Vec<Forgery> {
    let columns = round.stage.columns(round.quorums().n);
    let chance = rng.pick(&[10, 50, 100]);
    let mut lines = Vec::new();
    for &sender in &group.senders {
        for column in 0..columns {
            if rng.percent(chance) {
                lines.push((group.place(sender, column), some_cell(values, rng)));
            }
        }
    }
    lines
}

fn equivocate(round: &Round, group: &Group, values: &[Value], rng: &Rng) -> Vec<Forgery> {
    let columns = round.stage.columns(round.quorums().n);
    let told = if group.favoured {
        values[0]
    } else {
        rng.pick(&values[1..])
    };
    let cells = group
        .senders
        .iter()
        .flat_map(|&sender| (0..columns).map(move |column| (sender, column)));
    cells
        .map(|(sender, column)| (group.place(sender, column), Some(told)))
        .collect()
}

/// Forges for one group of senders, with what its receiver hears otherwise in
/// view.
struct Sculptor<'a> {
    stage: Stage,
    /// The phase's number, and so its coordinator's.
    phase: usize,
    n: usize,
    counts: Counts,
    group: &'a Group,
    /// What the receiver hears without this group.
    heard: Vec<Vec<Cell>>,
    /// The value that is counted, and one that stands against it.
    w: Value,
    other: Value,
}

impl<'a> Sculptor<'a> {
    fn new(round: &Round, group: &'a Group, values: &[Value], rng: &Rng) -> Sculptor<'a> {
        let quorums = round.quorums();
        // Uniform senders are heard by all, so any unseated receiver's view serves.
        let unseated: Vec<usize> = (0..quorums.n).filter(|&i| !round.after.has(i)).collect();
        let uniform = round.classes[group.senders[0]] == Class::Uniform;
        let view = if uniform {
            rng.pick(&unseated)
        } else {
            group.receiver
        };
        let heard = round.all_heard(view);
        let known = values.iter().copied().chain([quorums.fallback]);
        let favourite = if rng.percent(80) {
            most_heard(&heard, known)
        } else {
            None
        };
        let w = favourite.unwrap_or(values[0]);
        let other = *values.iter().find(|&&value| value != w).unwrap_or(&w);
        Sculptor {
            stage: round.stage,
            phase: round.number / 3,
            n: quorums.n,
            counts: quorums.counts,
            group,
            heard,
            w,
            other,
        }
    }

    fn forge(&self, rng: &Rng) -> Vec<Forgery> {
        match self.stage {
            Stage::Proposing | Stage::Maintaining => self.at_quorum(rng),
            Stage::Collecting => match rng.below(10) {
                0..5 => self.past_the_coordinator(),
                5..8 => self.any_of_three(1, rng),
                _ => self.two_faced(),
            },
            Stage::Deciding { .. } => match rng.below(10) {
                0..4 => self.at_candidates(rng),
                4..8 if self.group.senders.contains(&self.phase) => self.at_coordinator(rng),
                4..6 => self.at_candidates(rng),
                6..8 => self.parrot(rng),
                _ => self.any_of_three(self.n, rng),
            },
        }
    }

    /// w to all but the coordinator, so that there may be more candidates than
    /// cells in its row.
    fn past_the_coordinator(&self) -> Vec<Forgery> {
        let senders = self
            .group
            .senders
            .iter()
            .filter(|_| self.group.receiver != self.phase);
        senders
            .map(|&sender| (self.group.place(sender, 0), Some(self.w)))
            .collect()
    }

    /// With the file's first two values, whatever is heard.
    fn of_two(round: &Round, group: &'a Group, values: &[Value], rng: &Rng) -> Sculptor<'a> {
        Sculptor {
            w: values[0],
            other: values[1],
            ..Sculptor::new(round, group, values, rng)
        }
    }

    /// Nothing before the deciding round, so that it goes by the coordinator,
    /// and then a figure for the favoured and another for the rest.
    fn split(&self, rng: &Rng) -> Vec<Forgery> {
        match self.stage {
            Stage::Maintaining => self.at_quorum(rng),
            Stage::Deciding { .. } if self.group.senders.contains(&self.phase) => {
                let l = self.counts.l;
                let (with_w, against) = if self.group.favoured {
                    (l + 1, l)
                } else {
                    rng.pick(&[(l, l), (l, l + 1)])
                };
                self.coordinator_row(with_w, against, rng)
            }
            _ => Vec::new(),
        }
    }

    /// w to the favoured, the other value to the rest.
    fn two_faced(&self) -> Vec<Forgery> {
        let told = if self.group.favoured {
            self.w
        } else {
            self.other
        };
        self.group
            .senders
            .iter()
            .map(|&sender| (self.group.place(sender, 0), Some(told)))
            .collect()
    }

    /// n - b holders of w for the favoured, one fewer for the others; and as
    /// many cells filled otherwise as are allowed, or one more.
    fn at_quorum(&self, rng: &Rng) -> Vec<Forgery> {
        let Counts { b, l, .. } = self.counts;
        let cells = column_of(&self.heard, 0);
        let with_w = holders(&cells, self.w);
        let otherwise = cells.iter().flatten().count() - with_w;
        let goal = if self.group.favoured {
            self.n - b
        } else {
            self.n - b - 1
        };
        let copies = goal.saturating_sub(with_w);
        let against = rng.pick(&[0, l, l, l + 1]).saturating_sub(otherwise);
        let mut senders = self.group.senders.clone();
        rng.shuffle(&mut senders);
        let told =
            std::iter::repeat_n(self.w, copies).chain(std::iter::repeat_n(self.other, against));
        senders
            .iter()
            .zip(told)
            .map(|(&sender, value)| (self.group.place(sender, 0), Some(value)))
            .collect()
    }

    /// w, the other value or nothing in each cell.
    fn any_of_three(&self, columns: usize, rng: &Rng) -> Vec<Forgery> {
        let mut lines = Vec::new();
        for &sender in &self.group.senders {
            for column in 0..columns {
                let cell = rng.pick(&[Some(self.w), Some(self.w), Some(self.other), None]);
                // An empty cell needs no line, but may have one.
                if cell.is_some() || rng.percent(30) {
                    lines.push((self.group.place(sender, column), cell));
                }
            }
        }
        lines
    }

    /// l + e + 1 candidates for the favoured, one fewer for the others. A
    /// column that is not to be a candidate is left with exactly l holders.
    fn at_candidates(&self, rng: &Rng) -> Vec<Forgery> {
        let Counts { e, l, .. } = self.counts;
        let held: Vec<usize> = (0..self.n)
            .map(|k| holders(&column_of(&self.heard, k), self.w))
            .collect();
        let certain = held.iter().filter(|&&count| count > l).count();
        let goal = if self.group.favoured {
            l + e + 1
        } else {
            l + e
        };
        let mut missing = goal.saturating_sub(certain);
        let mut lines = Vec::new();
        for column in rng.some_below(self.n, self.n) {
            let within_reach = held[column] <= l && held[column] + self.group.senders.len() > l;
            let copies = if within_reach && missing > 0 {
                missing -= 1;
                l + 1 - held[column]
            } else {
                l.saturating_sub(held[column])
            };
            let mut senders = self.group.senders.clone();
            rng.shuffle(&mut senders);
            let against = rng.percent(30).then_some(Some(self.other));
            let told = std::iter::repeat_n(Some(self.w), copies).chain(against);
            lines.extend(
                senders
                    .iter()
                    .zip(told)
                    .map(|(&sender, cell)| (self.group.place(sender, column), cell)),
            );
        }
        lines
    }

    /// The coordinator's row: l + 1 cells of w for the favoured, l for others.
    fn at_coordinator(&self, rng: &Rng) -> Vec<Forgery> {
        let l = self.counts.l;
        let goal = l + usize::from(self.group.favoured);
        // Two values may well qualify, or none.
        let against = rng.pick(&[0, l, self.n]);
        self.coordinator_row(goal, against, rng)
    }

    /// A row with so many cells of w, and so many of the other value.
    fn coordinator_row(&self, with_w: usize, against: usize, rng: &Rng) -> Vec<Forgery> {
        let told =
            std::iter::repeat_n(self.w, with_w).chain(std::iter::repeat_n(self.other, against));
        let columns = rng.some_below(self.n, self.n);
        columns
            .into_iter()
            .zip(told)
            .map(|(column, value)| (self.group.place(self.phase, column), Some(value)))
            .collect()
    }

    /// Each sender repeats the row of another, with one cell changed.
    fn parrot(&self, rng: &Rng) -> Vec<Forgery> {
        let mut lines = Vec::new();
        for &sender in &self.group.senders {
            let changed = rng.below(self.n);
            let row = rng.pick(&self.heard);
            for (column, mut cell) in row.into_iter().enumerate() {
                if column == changed {
                    cell = if cell == Some(self.w) {
                        Some(self.other)
                    } else {
                        Some(self.w)
                    };
                }
                lines.push((self.group.place(sender, column), cell));
            }
        }
        lines
    }
}

/// Which of these values most cells hold, if any cell holds one.
fn most_heard(heard: &[Vec<Cell>], values: impl Iterator<Item = Value>) -> Cell {
    let cells: Vec<Cell> = heard.iter().flatten().copied().collect();
    let counted = values.map(|value| (holders(&cells, value), value));
    counted
        .filter(|&(count, _)| count > 0)
        .max_by_key(|&(count, _)| count)
        .map(|(_, value)| value)
}
