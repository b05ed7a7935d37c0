//! The groups that compare what one more account costs. The groups of `plans` have its texts.

use crate::brute;
use crate::files;
use crate::group::{hex, Group};
use crate::growth;
use crate::ours;
use crate::policy::Policy;
use crate::random::Random;
use crate::tree;

/// As many accounts as a label can have.
const FULL: u16 = 65_535;

/// How many labels have a cost that is at a bound or between them.
#[derive(Default)]
struct Bounds {
    full: usize,
    alone: usize,
    least: usize,
    between: usize,
    most: usize,
}

impl Bounds {
    fn add(&mut self, figures: (u8, u8)) {
        *match figures {
            (0, 0) => &mut self.full,
            (1, 1) => &mut self.alone,
            (1, _) => &mut self.least,
            (cost, ceiling) if cost == ceiling => &mut self.most,
            _ => &mut self.between,
        } += 1;
    }

    fn all_seen(&self) -> bool {
        [self.full, self.alone, self.least, self.between, self.most].iter().all(|times| *times > 0)
    }

    fn text(&self) -> String {
        let Bounds { full, alone, least, between, most } = self;
        let bounds = format!("{least} cost 1, {most} the ceiling, {between} between, {alone} with ceiling 1");
        format!(" (labels: {bounds}, {full} with 65,535 accounts)")
    }
}

struct Asked {
    group: Group,
    bounds: Bounds,
}

impl Asked {
    fn new(name: &'static str) -> Asked {
        Asked { group: Group::new(name), bounds: Bounds::default() }
    }

    /// Compares an accepted policy with what is expected, then asks the library alone for what the request says.
    fn growth(&mut self, file: &[u8], expected: Vec<(u8, u8)>) {
        let answer = ours::growth(file);
        self.group.case(|| format!("growth of {}", hex(file)), &answer, &Ok(expected));
        let total = |file: &[u8]| ours::plan(file).map(|plan| plan.total);
        let (today, order) = (total(file), ours::order(file).1);
        for (label, (cost, ceiling)) in answer.into_iter().flatten().enumerate() {
            self.bounds.add((cost, ceiling));
            let what = || format!("label {label} of {}", hex(file));
            let Some(raised) = raised(file, label) else {
                self.group.case(|| what() + ", which has 65,535 accounts", (cost, ceiling), (0, 0));
                continue;
            };
            let after = today.map(|today| today + cost as u32);
            self.group.case(|| what() + ", the total with one more", total(&raised), after);
            let below = order.iter().filter(|row| row[label]).count();
            self.group.case(|| what() + ", how many are at or below", ceiling as usize, below);
            self.group.holds(|| what() + " costs 1 to its ceiling", 1 <= cost && cost <= ceiling);
        }
    }

    fn report(mut self) -> bool {
        let seen = self.bounds.all_seen();
        self.group.holds(|| format!("costs at both bounds and between were seen{}", self.bounds.text()), seen);
        self.group.report(&self.bounds.text())
    }
}

/// The file with one account more at the label, if it can have one: the count is the last two of the label's
/// 12 bytes.
fn raised(file: &[u8], label: usize) -> Option<Vec<u8>> {
    let (mut file, at) = (file.to_vec(), 12 * label + 10);
    let count = u16::from_be_bytes([file[at], file[at + 1]]).checked_add(1)?;
    file[at..at + 2].copy_from_slice(&count.to_be_bytes());
    Some(file)
}

/// Policy E with so many accounts at CURVES. With 5, one more there hangs ACCRUED from CURVES and costs 1; in the
/// tree of the plan before it would cost 2.
fn e_with(curves: u16) -> Vec<u8> {
    let labels = [("SUITE", 2), ("CURVES", curves), ("CONV32", 5), ("ACCRUED", 4)];
    files::written(&labels, &files::E_PAIRS)
}

/// Policy E with a label more below CURVES, which hangs from it: one more account at CURVES raises the weights of
/// CURVES and ACCRUED alone.
fn e_with_rates() -> Vec<u8> {
    let labels = [("SUITE", 2), ("CURVES", 3), ("CONV32", 5), ("ACCRUED", 4), ("RATES", 1)];
    files::written(&labels, &[&files::E_PAIRS[..], &[(1, 4)]].concat())
}

/// 9 labels below the top and 54 below each of these. The 54 hang from the last of the 9, which has the most
/// accounts, so one more at any other raises the weight of each.
fn two_layers() -> (Vec<u8>, Vec<(u8, u8)>) {
    let middle = (1..10).map(|middle| (0, middle));
    let lowest = (10..64).flat_map(|lower| (1..10).map(move |middle| (middle, lower)));
    let pairs: Vec<(u8, u8)> = middle.chain(lowest).collect();
    let mut file = files::numbered(64, 7, &pairs);
    file[12 * 9 + 11] = 8;
    (file, [vec![(1, 64)], vec![(55, 55); 8], vec![(1, 55)], vec![(1, 1); 54]].concat())
}

/// Policies with what one more account costs at each label, and the ceiling, counted by hand.
fn counted() -> Vec<(Vec<u8>, Vec<(u8, u8)>)> {
    let chain = |a, b, c| files::written(&[("A", a), ("B", b), ("C", c)], &[(0, 1), (1, 2)]);
    let star: Vec<(u8, u8)> = (1..64).map(|lower| (0, lower)).collect();
    let line: Vec<(u8, u8)> = (1..64).map(|lower| (lower - 1, lower)).collect();
    let below: Vec<(u8, u8)> = (1..=64).rev().map(|below| (1, below)).collect();
    vec![
        (e_with(3), vec![(1, 4), (2, 2), (1, 2), (1, 1)]),
        (e_with(4), vec![(1, 4), (2, 2), (1, 2), (1, 1)]),
        (e_with(5), vec![(1, 4), (1, 2), (1, 2), (1, 1)]),
        (e_with(6), vec![(1, 4), (1, 2), (2, 2), (1, 1)]),
        (e_with(FULL - 1), vec![(1, 4), (1, 2), (2, 2), (1, 1)]),
        (e_with(FULL), vec![(1, 4), (0, 0), (2, 2), (1, 1)]),
        (e_with_rates(), vec![(1, 5), (2, 3), (1, 2), (1, 1), (1, 1)]),
        (files::written(&[("A", 7)], &[]), vec![(1, 1)]),
        (files::written(&[("A", 0)], &[]), vec![(1, 1)]),
        (files::written(&[("A", FULL - 1)], &[]), vec![(1, 1)]),
        (files::written(&[("A", FULL)], &[]), vec![(0, 0)]),
        (chain(1, 0, 4), vec![(1, 3), (1, 2), (1, 1)]),
        (chain(FULL, FULL - 1, FULL), vec![(0, 0), (1, 2), (0, 0)]),
        (files::numbered(64, 9, &star), [vec![(1, 64)], vec![(1, 1); 63]].concat()),
        (files::numbered(64, FULL - 1, &line), below),
        (files::numbered(64, FULL, &line), vec![(0, 0); 64]),
        two_layers(),
    ]
}

fn by_hand() -> bool {
    let mut asked = Asked::new("what one more account costs, counted by hand");
    for (file, costs) in counted() {
        let what = || format!("growth of {}, second alone", hex(&file));
        asked.group.case(what, growth::growth(&file), Ok(costs.clone()));
        asked.growth(&file, costs);
    }
    asked.report()
}

/// The fewest keys over every tree and every set.
fn fewest(policy: &Policy) -> u32 {
    brute::every_tree_tried(policy).iter().map(|one| one.total).min().unwrap()
}

/// By how much the fewest rise with one account more at the label, and how many labels are at or below it.
fn tried_at(policy: &Policy, before: u32, label: usize) -> Option<(u8, u8)> {
    let mut more = policy.clone();
    more.counts[label] = policy.counts[label].checked_add(1)?;
    let below = (0..policy.names.len()).filter(|m| policy.at_or_below(*m, label)).count();
    Some(((fewest(&more) - before) as u8, below as u8))
}

fn tried(random: &mut Random) -> bool {
    let mut asked =
        Asked::new("what one more account costs, every order of up to 5 labels, all trees and sets tried");
    for labels in 1..=5 {
        for _ in 0..[40, 40, 40, 40, 8][labels - 1] {
            for made in files::every_order(random, labels) {
                let before = fewest(&made);
                let costs = (0..labels).map(|label| tried_at(&made, before, label).unwrap_or_default());
                asked.growth(&made.to_bytes(), costs.collect());
            }
        }
    }
    asked.report()
}

/// A policy of any size and shape, every third with some counts changed: to the most that there is, to one less, to any.
fn made(random: &mut Random, i: usize) -> Policy {
    let mut policy = files::any_size(random, i);
    for count in policy.counts.iter_mut().take(if i % 3 == 0 { 64 } else { 0 }) {
        match random.below(8) {
            0 => *count = FULL,
            1 => *count = FULL - 1,
            2 => *count = random.next() as u16,
            _ => {}
        }
    }
    policy
}

fn larger(random: &mut Random) -> bool {
    let mut asked = Asked::new("what one more account costs, policies of up to 64 labels and 512 pairs");
    for i in 0..3000 {
        let made = made(random, i);
        let file = made.to_bytes();
        let planned = tree::plan(&file).map(|plan| plan.total);
        let what = || format!("total of the plan of {}, second alone", hex(&file));
        asked.group.case(what, Ok(growth::total(&made)), planned);
        asked.growth(&file, growth::growth(&file).unwrap());
    }
    asked.report()
}

fn refused(random: &mut Random) -> bool {
    let mut group = Group::new("what one more account costs, refused policies");
    for _ in 0..6000 {
        let (file, number) = files::refused_policy(random);
        group.case(|| format!("growth of {}", hex(&file)), ours::growth(&file), Err(number));
    }
    group.report("")
}

pub fn groups(random: &mut Random) -> Vec<bool> {
    vec![by_hand(), tried(random), larger(random), refused(random)]
}
