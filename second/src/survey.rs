//! What cases reach, counted for each up to its verdict: how many points share an instant, how many
//! lines are under way, which `over all` conditions are touched, where parts end.

use std::collections::BTreeMap;
use std::io::{self, BufRead, Write};

use crate::batch::{read_record, Record};
use crate::happening::{Point, Word};
use crate::interference::{Footprint, Touch};
use crate::plan::{read_plan, Step};
use crate::verdict::judge_telling;
use crate::{load, word_written};

/// What one case reaches.
#[derive(Default)]
struct Reached {
    /// the most points of one happening
    points: usize,
    /// see `crossed`, of the happening that failed
    crossed: bool,
    /// the most lines under way after a happening
    under_way: usize,
    /// lines under way whose `over all` conditions read what a happening wrote, and held
    touched: usize,
    /// of these those that started in that happening, and those while another line ended in it
    touched_at_start: usize,
    touched_at_end: usize,
    /// a part of the plan ends while lines are under way
    cut: bool,
}

impl Reached {
    fn of(record: &Record) -> Option<(Word, Self)> {
        let (domain, problem) = load(&record.domain, &record.problem).ok()?;
        let steps = read_plan(&domain, &problem, &record.plan).ok()?;
        let mut reached = Reached {
            cut: cut(&steps, &record.plan, record.part),
            ..Reached::default()
        };
        let tell = |happening: &[Point], under_way: &[Point], passed| {
            reached.tell(happening, under_way, passed);
        };
        let verdict = judge_telling(&domain, &problem, &steps, tell);
        Some((verdict.word, reached))
    }

    fn tell(&mut self, happening: &[Point], under_way: &[Point], passed: bool) {
        let footprints: Vec<Footprint> = happening.iter().map(Footprint::of).collect();
        self.points = self.points.max(happening.len());
        if !passed {
            self.crossed = crossed(&footprints);
            return;
        }
        self.under_way = self.under_way.max(under_way.len());
        let time = happening[0].time;
        let ended = happening.iter().any(|point| point.is_end);
        for line in under_way {
            let watched = Footprint::over_all(line);
            if footprints
                .iter()
                .any(|one| one.touch(&watched) != Touch::NONE)
            {
                self.touched += 1;
                self.touched_at_start += usize::from(line.time == time);
                self.touched_at_end += usize::from(ended);
            }
        }
    }
}

/// Whether the first pair that interferes, by the lower point and then the higher, is not the first
/// that is met by holding each point against those before it.
pub(crate) fn crossed(footprints: &[Footprint]) -> bool {
    let count = footprints.len();
    let pairs = (0..count).flat_map(|one| (one + 1..count).map(move |other| (one, other)));
    let mut meeting =
        pairs.filter(|(one, other)| footprints[*one].interferes_with(&footprints[*other]));
    let Some(first) = meeting.next() else {
        return false;
    };
    meeting.any(|(_, other)| other < first.1)
}

/// Whether a part of the plan ends while lines are under way that have been read.
fn cut(steps: &[Step], plan: &[u8], part: usize) -> bool {
    let mut steps = steps.iter().peekable();
    let (mut line, mut now, mut latest) = (1, 0, 0);
    for (place, byte) in plan.iter().enumerate() {
        if place > 0 && place % part == 0 && latest > now {
            return true;
        }
        if *byte == b'\n' {
            while let Some(step) = steps.next_if(|step| step.line == line) {
                now = step.start;
                latest = latest.max(step.end().unwrap_or(0));
            }
            line += 1;
        }
    }
    false
}

/// How many cases reach something, by their verdicts.
#[derive(Default)]
struct Count(BTreeMap<&'static str, usize>);

impl Count {
    fn write(&self, what: &str, output: &mut dyn Write) -> io::Result<()> {
        let total: usize = self.0.values().sum();
        let words = self.0.iter().map(|(word, count)| format!("{word} {count}"));
        let words: Vec<String> = words.collect();
        writeln!(output, "{what}: {total} ({})", words.join(", "))
    }
}

/// What is counted, and which cases reach it.
type Row = (&'static str, fn(&Reached) -> bool);

const ROWS: &[Row] = &[
    ("not refused", |_| true),
    ("a happening of 8 points or more", |case| case.points >= 8),
    ("a happening of 16 points or more", |case| case.points >= 16),
    ("a happening of 32 points or more", |case| case.points >= 32),
    ("the first pair is not the first met", |case| case.crossed),
    ("8 lines under way or more", |case| case.under_way >= 8),
    ("16 lines under way or more", |case| case.under_way >= 16),
    ("31 lines under way or more", |case| case.under_way >= 31),
    ("over all touched, not broken", |case| case.touched > 0),
    ("over all touched at the own start", |case| {
        case.touched_at_start > 0
    }),
    ("over all touched where another line ends", |case| {
        case.touched_at_end > 0
    }),
    ("over all touched 10 times or more", |case| {
        case.touched >= 10
    }),
    ("a part ends while lines are under way", |case| case.cut),
];

/// Reads records and writes how many of them reach what, by their verdicts.
pub fn survey(input: &mut dyn BufRead, output: &mut dyn Write) -> io::Result<()> {
    let mut counts: Vec<Count> = ROWS.iter().map(|_| Count::default()).collect();
    let mut cases = 0;
    while let Some(record) = read_record(input, cases + 1)? {
        cases += 1;
        let Some((word, reached)) = Reached::of(&record) else {
            continue;
        };
        for ((_, reaches), count) in ROWS.iter().zip(&mut counts) {
            if reaches(&reached) {
                *count.0.entry(word_written(word)).or_insert(0) += 1;
            }
        }
    }
    writeln!(output, "cases: {cases}")?;
    for ((what, _), count) in ROWS.iter().zip(&counts) {
        count.write(what, output)?;
    }
    output.flush()
}
