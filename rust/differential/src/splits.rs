//! A check split into turns: quotas, records that no turn gave, and files that
//! change between the turns.

use crate::cases::Pair;
use crate::checker::{Checker, Progress, Stage, Turned, Verdict};
use crate::compare::{self, Origin};
use crate::random::Random;
use crate::stages::Stages;

/// How many quotas are drawn for a split before one that takes all that is left.
const DRAWN: usize = 12;
/// The most lines of a turn that is run again line by line.
const BY_LINES: usize = 24;

/// How many lines the trailer of a certificate counts; none if there is no
/// trailer.
pub fn line_count(certificate: &[u8]) -> usize {
    let Some([_, _, _, _, _, _, b0, b1, s0, s1, ..]) = certificate.last_chunk::<16>() else {
        return 0;
    };
    let [base, step] = [[*b0, *b1], [*s0, *s1]].map(u16::from_le_bytes);
    usize::from(base) + usize::from(step)
}

/// A quota for so many lines: 0 and 1 often, at times all of them and more.
pub fn quota(random: &mut Random, lines: usize) -> usize {
    match random.below(12) {
        0 | 1 => 0,
        2..=4 => 1,
        5 | 6 => random.within(2, 9),
        7..=10 => random.below(lines / 2 + 2),
        _ => random.of([lines, lines + 1, 65_535, usize::MAX - 1, usize::MAX]),
    }
}

/// A record of any line number: mostly of so many lines, at times past them.
pub fn forged(random: &mut Random, lines: usize) -> Progress {
    let line = match random.below(12) {
        0 => lines,
        1 | 2 => lines + random.within(1, 3),
        3 => random.of([65_535, 1 << 32, usize::MAX - 1, usize::MAX]),
        4 => random.bits() as usize,
        _ => random.below(lines + 1),
    };
    Progress { line }
}

/// A right certificate with a line that one of its joins cites overwritten, as
/// no turn from its first line lets it stand: the count, mostly over 12, the
/// literals past the first ones, and what no join looks at. Gives the join's
/// number and the count. Nothing if there is no join.
pub fn with_cited(random: &mut Random, certificate: &mut [u8]) -> Option<(usize, u8)> {
    let count = line_count(certificate);
    let end = certificate.len() - 16;
    let (lines, _) = certificate[end - 80 * count..end].as_chunks_mut::<80>();
    let joins: Vec<usize> = (0..count).filter(|i| lines[*i][0] == 3).collect();
    let join = random.pick(&joins)?;
    let at = random.of([2, 4]);
    let [low, high] = [lines[join][at], lines[join][at + 1]];
    let cited = &mut lines[usize::from(u16::from_le_bytes([low, high]))];
    let first = usize::from(cited[1]);
    let own = 8 + 2 * random.below(first);
    let filling = match random.below(2) {
        0 => [cited[own], cited[own + 1]],
        _ => [random.byte(), 0],
    };
    for literal in cited[8 + 2 * first..32].as_chunks_mut().0 {
        *literal = filling;
    }
    cited[1] = random.of([12, 13, 14, 128, 255]);
    cited[0] = random.byte();
    cited[32..].fill(random.byte());
    Some((join, cited[1]))
}

/// What turns are compared on.
pub struct Splits<'a> {
    /// All that are compared.
    pub checkers: &'a [&'a dyn Checker],
    /// Where the case comes from.
    pub origin: Origin,
    /// What was met.
    pub stages: &'a mut Stages,
}

impl Splits<'_> {
    /// A turn, compared and counted.
    pub fn turn(&mut self, pair: &Pair, progress: Progress, quota: usize) -> Turned {
        let files = (&pair.0[..], &pair.1[..]);
        let turned = compare::turn(self.checkers, self.origin, files, progress, quota);
        self.stages.count(progress.line, quota, turned);
        turned
    }

    /// The record that all begin with.
    fn begun(&self) -> Progress {
        let begun = self.checkers[0].turns_begin();
        for other in self.checkers {
            assert_eq!(other.turns_begin(), begun, "{}", other.name());
        }
        begun
    }

    /// The check of a pair, split at random: every answer that is not
    /// unfinished is that of one call, and where it is accepted the lines of all
    /// turns so far are all lines. Some turns are taken after that, too. Gives
    /// the answer of one call.
    pub fn split(&mut self, random: &mut Random, pair: &Pair) -> Verdict {
        let (lines, verdict) = (
            line_count(&pair.1),
            self.checkers[0].check(&pair.0, &pair.1),
        );
        let one_call = verdict.map_or_else(Stage::Refused, Stage::Accepted);
        let (mut progress, mut checked) = (self.begun(), 0);
        for drawn in 0.. {
            let own = if drawn < DRAWN {
                quota(random, lines)
            } else {
                usize::MAX
            };
            let turned = self.turn(pair, progress, own);
            (progress, checked) = (turned.progress, checked + turned.checked);
            if turned.answer == Stage::Unfinished {
                continue;
            }
            let origin = self.origin;
            assert_eq!(turned.answer, one_call, "{origin:?}: in turns");
            let all = verdict.is_err() || checked == lines;
            assert!(all, "{origin:?}: {checked} of {lines} lines");
            if drawn >= DRAWN || random.once_in(2) {
                break;
            }
        }
        verdict
    }

    /// A turn from a record that no turn gave, compared with the same lines one
    /// at a time.
    pub fn forged(&mut self, random: &mut Random, pair: &Pair) {
        let lines = line_count(&pair.1);
        let progress = forged(random, lines);
        let quota = quota(random, lines);
        let turned = self.turn(pair, progress, quota);
        if quota.min(lines) <= BY_LINES {
            let by_lines = self.by_lines(pair, progress, quota.min(lines));
            let origin = self.origin;
            assert_eq!(turned, by_lines, "{origin:?}: line by line");
        }
    }

    /// A turn made of turns of one line, and one of none where the quota is 0.
    fn by_lines(&mut self, pair: &Pair, given: Progress, quota: usize) -> Turned {
        let mut last = self.turn(pair, given, quota.min(1));
        while last.answer == Stage::Unfinished && last.progress.line < given.line + quota {
            last = self.turn(pair, last.progress, 1);
        }
        match last.answer {
            Stage::Refused(_) => Turned {
                progress: given,
                checked: 0,
                ..last
            },
            _ => Turned {
                checked: last.progress.line - given.line,
                ..last
            },
        }
    }

    /// Turns on files that change between them: each takes the record of the
    /// turn before and one of these pairs.
    pub fn changing(&mut self, random: &mut Random, pairs: &[Pair]) {
        let mut progress = self.begun();
        for _ in 0..DRAWN {
            let pair = &pairs[random.below(pairs.len())];
            let quota = quota(random, line_count(&pair.1));
            progress = self.turn(pair, progress, quota).progress;
        }
    }
}
