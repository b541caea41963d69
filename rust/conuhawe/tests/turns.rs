//! A certificate checked in turns: what each turn gives, what refuses it, and
//! that turns on the same files come to what one call says.

mod common;

use common::two_bands;
use conuhawe::{
    check, turn, turns_begin, Accepted, Place, Progress, Refusal, Stage, Turned, Turns,
};
use reference::build::proof::{two_bands_certificate, two_bands_node};
use reference::build::random::{self, damage, Random};
use reference::build::{multiples, search, CertificateFile, Constraint, Line};
use reference::certificate::turns as by_reference;
use std::collections::BTreeMap;

/// How many lines the base of the two bands has, and how many both parts.
const BASE: usize = 23;
const LINES: usize = 35;
const ACCEPTED: Accepted = Accepted {
    depth: 1,
    base: BASE,
    step: LINES - BASE,
};
/// Records past the last line of the two bands.
const PAST: [usize; 5] = [LINES + 1, LINES + 2, 65_535, usize::MAX - 1, usize::MAX];

/// A turn that is not refused: the answer, and where it comes to.
fn moved(stage: Stage, from: usize, to: usize) -> Turned {
    Turned {
        answer: Ok(stage),
        progress: Progress::at(to),
        checked: to - from,
    }
}

/// A turn that is refused: the record is where it was.
fn refused(number: usize, place: Place, at: usize) -> Turned {
    Turned {
        answer: Err(Refusal { number, place }),
        progress: Progress::at(at),
        checked: 0,
    }
}

/// A turn on the two bands.
fn on_two_bands(line: usize, quota: usize) -> Turned {
    let (node, certificate) = two_bands();
    turn(&node, &certificate, Progress::at(line), quota)
}

/// A turn on the two bands' node and another certificate.
fn on(certificate: &CertificateFile, line: usize, quota: usize) -> Turned {
    let node = two_bands_node().bytes();
    turn(&node, &certificate.bytes(), Progress::at(line), quota)
}

#[test]
fn a_begun_record_is_line_0() {
    assert_eq!(turns_begin(), Progress::at(0));
    assert_eq!(turns_begin().line(), 0);
}

/// From each line with each quota.
#[test]
fn every_line_and_quota() {
    for line in 0..=LINES {
        for quota in (0..=LINES + 2).chain([1 << 32, usize::MAX - 1, usize::MAX]) {
            let to = LINES.min(line.saturating_add(quota));
            let stage = match to {
                LINES => Stage::Accepted(ACCEPTED),
                _ => Stage::Unfinished,
            };
            let expected = moved(stage, line, to);
            assert_eq!(on_two_bands(line, quota), expected, "{line} {quota}");
        }
    }
}

#[test]
fn turns_come_to_what_one_call_says() {
    let (node, certificate) = two_bands();
    assert_eq!(check(&node, &certificate), Ok(ACCEPTED));
    for quota in 1..=LINES + 2 {
        let mut turns = Turns::begin(&node, &certificate);
        let mut checked = Vec::new();
        let accepted = loop {
            let turned = turns.turn(quota);
            checked.push(turned.checked);
            assert_eq!(turns.progress(), turned.progress);
            if let Stage::Accepted(accepted) = turned.answer.unwrap() {
                break accepted;
            }
        };
        assert_eq!(accepted, ACCEPTED);
        assert_eq!(checked.len(), LINES.div_ceil(quota));
        assert_eq!(checked.iter().sum::<usize>(), LINES);
        let again = moved(Stage::Accepted(ACCEPTED), LINES, LINES);
        assert_eq!([turns.turn(0), turns.turn(quota)], [again; 2]);
    }
}

#[test]
fn a_turn_without_lines_moves_nothing() {
    let (node, certificate) = two_bands();
    let mut turns = Turns::begin(&node, &certificate);
    for _ in 0..3 {
        assert_eq!(turns.turn(0), moved(Stage::Unfinished, 0, 0));
    }
    turns.turn(30);
    assert_eq!(turns.turn(0), moved(Stage::Unfinished, 30, 30));
}

/// A refused turn moves past no line, not even those before the one at fault,
/// and a smaller quota is unfinished after it.
#[test]
fn a_refused_turn_stays_where_it_was() {
    let (node, mut certificate) = two_bands();
    // Line 13 joins two lines; now it joins itself.
    assert_eq!(certificate[80 * 13], 3);
    certificate[80 * 13 + 2] = 13;
    let at_13 = |from| refused(19, Place::Line(13), from);
    let one_call = check(&node, &certificate).map(Stage::Accepted);
    assert_eq!(one_call, at_13(0).answer);
    let mut turns = Turns::begin(&node, &certificate);
    assert_eq!(turns.turn(14), at_13(0));
    assert_eq!(turns.turn(usize::MAX), at_13(0));
    assert_eq!(turns.turn(4), moved(Stage::Unfinished, 0, 4));
    assert_eq!(turns.turn(10), at_13(4));
    assert_eq!(turns.turn(9), moved(Stage::Unfinished, 4, 13));
    for quota in [1, 2, LINES, usize::MAX] {
        assert_eq!(turns.turn(quota), at_13(13));
    }
    assert_eq!(turns.turn(0), moved(Stage::Unfinished, 13, 13));
}

#[test]
fn refusals_come_in_order() {
    let mut certificate = two_bands_certificate();
    certificate.base[0].count = 13;
    for line in PAST {
        assert_eq!(on(&certificate, line, 1), refused(55, Place::File, line));
        assert_eq!(on(&certificate, line, 0), refused(55, Place::File, line));
    }
    let at_0 = refused(16, Place::Line(0), 0);
    assert_eq!(on(&certificate, 0, 1), at_0);
    // A term of a stream that there is not, before any line.
    certificate.constraints = vec![Constraint::new(&[(9, 0, 1)], 0)];
    let (node, file) = (two_bands_node().bytes(), certificate.bytes());
    for line in PAST.into_iter().chain([0, 7, LINES]) {
        let refused = |number, place| refused(number, place, line);
        let progress = Progress::at(line);
        let wrong = refused(15, Place::Constraint(0));
        assert_eq!(turn(&node, &file, progress, 1), wrong);
        let too_short = refused(11, Place::File);
        assert_eq!(turn(&node, &file[..15], progress, 0), too_short);
        let no_node = refused(1, Place::File);
        assert_eq!(turn(&[], &[], progress, usize::MAX), no_node);
    }
}

#[test]
fn a_certificate_without_lines_ends_at_once() {
    let none = CertificateFile {
        depth: 1,
        ..CertificateFile::default()
    };
    for quota in [0, 1, usize::MAX] {
        assert_eq!(on(&none, 0, quota), refused(21, Place::Base, 0));
        assert_eq!(on(&none, 1, quota), refused(55, Place::File, 1));
    }
}

/// 21 looks at all lines of both parts, and only where none is left.
#[test]
fn rule_21_is_the_last_turns() {
    for (line, place) in [(BASE - 1, Place::Base), (LINES - 1, Place::Step)] {
        let (node, mut certificate) = two_bands();
        // The part's last line is no longer empty: a join may have more literals.
        certificate[80 * line + 1] = 1;
        certificate[80 * line + 8] = 10;
        let last = LINES - 1;
        let mut turns = Turns::begin(&node, &certificate);
        assert_eq!(turns.turn(last), moved(Stage::Unfinished, 0, last));
        assert_eq!(turns.turn(0), moved(Stage::Unfinished, last, last));
        for quota in [1, 2, usize::MAX] {
            assert_eq!(turns.turn(quota), refused(21, place, last));
        }
        for quota in [0, 1, usize::MAX] {
            let turned = turn(&node, &certificate, Progress::at(LINES), quota);
            assert_eq!(turned, refused(21, place, LINES));
        }
    }
}

/// A record that no turn gave skips lines: what is accepted then proves nothing.
#[test]
fn a_forged_record_skips_lines() {
    let mut certificate = two_bands_certificate();
    certificate.base[3] = Line::default();
    let expected = refused(16, Place::Line(3), 0);
    assert_eq!(on(&certificate, 0, usize::MAX), expected);
    // Line 4 joins line 3, which is no clause of an equation any more.
    let expected = refused(19, Place::Line(4), 4);
    assert_eq!(on(&certificate, 4, usize::MAX), expected);
    let expected = moved(Stage::Accepted(ACCEPTED), 5, LINES);
    assert_eq!(on(&certificate, 5, usize::MAX), expected);
    let expected = moved(Stage::Accepted(ACCEPTED), LINES, LINES);
    assert_eq!(on(&certificate, LINES, 0), expected);
}

/// A join may cite lines that no turn has checked: of these at most twelve
/// literals are looked at, whatever their count bytes say, and nothing else.
#[test]
fn cited_lines_are_read_as_they_stand() {
    let whole = two_bands_certificate();
    // Line 2 joins line 1, {5, 4}, and line 0, {!5, !5 one instant later}.
    let [fails, equation, join] = [0, 1, 2].map(|line| whole.base[line]);
    assert_eq!([join.kind, equation.count, fails.count], [3, 2, 2]);
    let from_2 = |certificate: &CertificateFile| on(certificate, 2, 1);
    let passes = moved(Stage::Unfinished, 2, 3);
    let fault = refused(19, Place::Line(2), 2);
    assert_eq!(from_2(&whole), passes);
    for (cited, count) in [(0, 13), (1, 13), (0, 255), (1, 255)] {
        let mut other = whole.clone();
        other.base[cited].count = count;
        // Ten literals 0 are listed too, which line 2 has not.
        assert_eq!(from_2(&other), fault);
        let own = other.base[cited].literals[0];
        other.base[cited].literals[2..].fill(own);
        assert_eq!(from_2(&other), passes);
        // Neither the kind nor what else stands there is looked at.
        other.base[cited].kind = 77;
        (other.base[cited].p, other.base[cited].q) = (999, 999);
        other.base[cited].multipliers = [u32::MAX; 12];
        assert_eq!(from_2(&other), passes);
        // The twelfth is looked at.
        other.base[cited].literals[11] = 0;
        assert_eq!(from_2(&other), fault);
    }
    let mut other = whole;
    other.base[1].count = 0;
    assert_eq!(from_2(&other), fault);
}

/// Each line that a turn moves past meets its rules in that turn's files.
#[test]
fn files_may_change_between_turns() {
    let node = two_bands_node().bytes();
    let right = two_bands_certificate();
    let mut wrong = right.clone();
    assert_eq!(right.base[7].kind, 1);
    wrong.base[7].p = 40;
    let [right, wrong] = [right, wrong].map(|certificate| certificate.bytes());
    let at = |line, certificate: &[u8], quota| turn(&node, certificate, Progress::at(line), quota);
    assert_eq!(at(0, &wrong, 7), moved(Stage::Unfinished, 0, 7));
    assert_eq!(at(7, &wrong, 1), refused(17, Place::Line(7), 7));
    assert_eq!(at(7, &right, 1), moved(Stage::Unfinished, 7, 8));
    let end = moved(Stage::Accepted(ACCEPTED), 8, LINES);
    assert_eq!(at(8, &wrong, 100), end);
    // In a shorter file the record is past the last line, or at it.
    let mut shorter = two_bands_certificate();
    shorter.step.clear();
    let shorter = shorter.bytes();
    let past = BASE + 1;
    assert_eq!(at(past, &shorter, 0), refused(55, Place::File, past));
    assert_eq!(at(BASE, &shorter, 0), refused(21, Place::Step, BASE));
}

/// The reference's turn, in words.
fn by_reference(node: &[u8], certificate: &[u8], line: usize, quota: usize) -> String {
    let record = by_reference::Progress { line };
    let turned = by_reference::turn(node, certificate, record, quota);
    let (checked, line) = (turned.checked, turned.progress.line);
    format!("checked {checked} to line {line}: {}", turned.answer)
}

/// A turn in the same words.
fn told(turned: Turned) -> String {
    let answer = turned
        .answer
        .map_or_else(|refusal| refusal.to_string(), |stage| stage.to_string());
    let (checked, line) = (turned.checked, turned.progress.line());
    format!("checked {checked} to line {line}: {answer}")
}

/// Certified pairs: the two bands, nodes proved by cuts, random ones.
fn pairs(random: &mut Random) -> Vec<(Vec<u8>, Vec<u8>)> {
    let mut pairs = vec![two_bands()];
    for (m, k) in [(2, 7), (65_535, 1), (1_000, -999_999_999)] {
        let certificate = multiples::certificate(m, k, 1, multiples::bounds(m, k));
        pairs.push((multiples::node(m, k).bytes(), certificate.bytes()));
    }
    for size in 0..117 {
        let node = random::node(random, 3 + size % 9).bytes();
        let found = search::certificate(&node, [1, 1, 2, 3][random.below(4)]);
        pairs.extend(found.map(|certificate| (node, certificate.bytes())));
    }
    pairs
}

/// A quota: often 0 or 1, at times all and more.
fn quota(random: &mut Random) -> usize {
    match random.below(8) {
        0 | 1 => 0,
        2 | 3 => 1,
        4..=6 => random.below(40),
        _ => usize::MAX - random.below(2),
    }
}

/// Lists of turns on pairs, as often as not damaged, are the reference's.
#[test]
fn as_by_the_reference() {
    let mut random = Random::new(101);
    let pairs = pairs(&mut random);
    assert!(pairs.len() > 40, "{}", pairs.len());
    let mut met: BTreeMap<String, usize> = BTreeMap::new();
    for case in 0..60_000 {
        let (mut node, mut certificate) = pairs[random.below(pairs.len())].clone();
        if case % 8 == 7 {
            damage(&mut random, &mut node);
        }
        if case % 2 == 1 {
            damage(&mut random, &mut certificate);
        }
        let mut line = if case % 3 == 0 { random.below(60) } else { 0 };
        for _ in 0..6 {
            let quota = quota(&mut random);
            let turned = turn(&node, &certificate, Progress::at(line), quota);
            let said = told(turned);
            assert_eq!(said, by_reference(&node, &certificate, line, quota));
            let answer = said.split(": ").nth(1).unwrap_or("");
            let words: Vec<&str> = answer.split(' ').take(2).collect();
            *met.entry(words.join(" ")).or_default() += 1;
            line = turned.progress.line();
        }
    }
    let often = |word: &str| met.get(word).copied().unwrap_or(0);
    for word in ["accepted depth", "unfinished", "refused 55"] {
        assert!(often(word) > 20_000, "{word}: {met:?}");
    }
    for number in (1..=8).chain(11..=23) {
        let met_once = often(&format!("refused {number}")) > 0;
        assert!(met_once, "{number}: {met:?}");
    }
}
