//! The groups that compare plans, weighed trees, texts and drawings. The texts of what one more account costs are
//! among the texts.

use crate::brute::{self, Tried};
use crate::files;
use crate::group::{hex, Answers, Group};
use crate::growth;
use crate::ours;
use crate::policy::Policy;
use crate::random::Random;
use crate::tree::{self, Plan, Planned};

/// A text of a policy: ours into a buffer, with the length, and the second implementation's bytes, or the refusal.
pub struct Form {
    name: &'static str,
    pub ours: fn(&[u8], &mut [u8]) -> Result<usize, u8>,
    pub second: fn(&[u8]) -> Result<Vec<u8>, u8>,
}

pub const TEXT: Form = Form { name: "text", ours: ours::plan_text, second: tree::text };
pub const DOT: Form = Form { name: "drawing", ours: ours::plan_dot, second: tree::dot };
pub const GROWTH: Form = Form { name: "growth", ours: ours::growth_text, second: growth::text };
const FORMS: [Form; 3] = [TEXT, DOT, GROWTH];

/// What the library was asked for, over all groups.
#[derive(Default)]
pub struct Counts {
    pub plans: usize,
    pub trees: usize,
    pub texts: usize,
}

/// A group that counts what it asks the library for, and the answers by refusal number.
struct Asked<'a> {
    group: Group,
    counts: &'a mut Counts,
    answers: Answers,
}

impl<'a> Asked<'a> {
    fn new(name: &'static str, counts: &'a mut Counts) -> Asked<'a> {
        Asked { group: Group::new(name), counts, answers: Answers::default() }
    }

    fn plan(&mut self, file: &[u8], expected: Result<Plan, u8>) {
        self.counts.plans += 1;
        self.group.case(|| format!("plan of {}", hex(file)), ours::plan(file), expected);
    }

    fn weigh(&mut self, file: &[u8], tree: &[u8], expected: Result<(u32, bool), u8>) {
        self.counts.trees += 1;
        self.answers.add(expected.err().unwrap_or(0), 1);
        let what = || format!("tree {} of {}", hex(tree), hex(file));
        self.group.case(what, ours::weigh(file, tree), expected);
    }

    /// The text goes to the buffer's start, and all behind it stays; with a refusal the buffer stays whole.
    fn text(&mut self, form: &Form, file: &[u8], text: &Result<Vec<u8>, u8>, room: usize) {
        self.counts.texts += 1;
        let mut buffer: Vec<u8> = (0..room).map(|i| 128 + (i * 37 % 128) as u8).collect();
        let mut expected = buffer.clone();
        let written = tree::into_room(text.clone(), room);
        let answer = written.as_ref().map(Vec::len).map_err(|number| *number);
        expected[..answer.unwrap_or(0)].copy_from_slice(&written.unwrap_or_default());
        let said = (form.ours)(file, &mut buffer);
        let what = || format!("{} of {} with {room} bytes", form.name, hex(file));
        self.group.case(what, (said, buffer), (answer, expected));
    }

    /// Each text with room for it, just room, one byte less, and more or less at random.
    fn texts(&mut self, random: &mut Random, file: &[u8]) {
        for form in &FORMS {
            let text = (form.second)(file);
            let length = text.as_ref().map_or(100, Vec::len);
            let some = [random.below(length), length + random.below(5000)];
            for room in [8192, length, length - 1, length + 1, 0].into_iter().chain(some) {
                self.text(form, file, &text, room);
            }
        }
    }

    fn report(self) -> bool {
        let trees = format!(", trees{}", self.answers.text());
        self.group.report(if self.answers.seen().is_empty() { "" } else { &trees })
    }
}

const E_TEXT: &str = "SUITE - 2 1 2
CURVES SUITE 3 2 3
CONV32 SUITE 5 1 5
ACCRUED CONV32 7 1 4
TOTAL 17
";

const E_DOT: &str = r#"digraph plan {
  node [shape=box];
  "SUITE" [label="SUITE\naccounts 2\nweight 2\nkeys 1"];
  "CURVES" [label="CURVES\naccounts 3\nweight 3\nkeys 2"];
  "SUITE" -> "CURVES";
  "CONV32" [label="CONV32\naccounts 5\nweight 5\nkeys 1"];
  "SUITE" -> "CONV32";
  "ACCRUED" [label="ACCRUED\naccounts 4\nweight 7\nkeys 1"];
  "CONV32" -> "ACCRUED";
  label="TOTAL 17";
}
"#;

const E_GROWTH: &str = "SUITE 1 4
CURVES 2 2
CONV32 1 2
ACCRUED 1 1
";

/// 9 labels below the top and 54 below each of these, with 65,535 accounts each. In the plan the 54 hang from
/// label 9, so each of the other 8 holds 54 keys beside its own.
fn two_layers() -> (Vec<u8>, Plan) {
    let middle = (1..10).map(|middle| (0, middle));
    let lowest = (10..64).flat_map(|lower| (1..10).map(move |middle| (middle, lower)));
    let pairs: Vec<(u8, u8)> = middle.chain(lowest).collect();
    let plan = Plan {
        parents: [vec![0; 10], vec![9; 54]].concat(),
        weights: [vec![65_535; 10], vec![9 * 65_535; 54]].concat(),
        sizes: [vec![1], vec![55; 8], vec![1; 55]].concat(),
        total: 32_505_360,
    };
    (files::numbered(64, 65_535, &pairs), plan)
}

/// Document 01's policies with the plan that it gives, by Ask 1 of document 02 for the chain, or the refusal, and
/// large ones. In E with CURVES and CONV32 exchanged, counting labels instead of accounts would hang ACCRUED from
/// CURVES, for a total of 19.
fn plans_by_hand() -> Vec<(&'static str, Vec<u8>, Result<Plan, u8>)> {
    let e = |more: &[(u8, u8)]| files::written_e(&[&files::E_PAIRS, more].concat());
    let one = files::written(&[("A", 7)], &[]);
    let chain = files::written(&[("A", 1), ("B", 0), ("C", 4)], &[(0, 1), (1, 2)]);
    let exchanged = [("SUITE", 2), ("CONV32", 5), ("CURVES", 3), ("ACCRUED", 4)];
    let exchanged = files::written(&exchanged, &files::E_PAIRS);
    let plan = |parents: &[u8], weights: &[u32], sizes: &[u8], total| {
        let (parents, weights, sizes) = (parents.to_vec(), weights.to_vec(), sizes.to_vec());
        Ok(Plan { parents, weights, sizes, total })
    };
    let star: Vec<(u8, u8)> = (1..65).map(|lower| (0, lower)).collect();
    let (most, too_many) = (files::numbered(64, 9, &star[..63]), files::numbered(65, 9, &star));
    let line: Vec<(u8, u8)> = (1..64).map(|lower| (lower - 1, lower)).collect();
    let chained = files::numbered(64, 65_535, &line);
    let up_to: Vec<u8> = (0..64).map(|lower: u8| lower.saturating_sub(1)).collect();
    let (layers, in_layers) = two_layers();
    vec![
        ("empty policy", Vec::new(), Err(1)),
        ("its record without the last byte", one[..11].to_vec(), Err(3)),
        ("one label with 7 accounts", one, plan(&[0], &[7], &[1], 7)),
        ("E", e(&[]), plan(&[0, 0, 0, 2], &[2, 3, 5, 7], &[1, 2, 1, 1], 17)),
        ("E, CURVES and CONV32 exchanged", exchanged, plan(&[0, 0, 0, 1], &[2, 5, 3, 7], &[1, 1, 2, 1], 17)),
        ("E without its last two pairs", files::written_e(&files::E_PAIRS[..2]), Err(10)),
        ("E, added pair 3-3", e(&[(3, 3)]), Err(9)),
        ("E, added pair 3-4", e(&[(3, 4)]), Err(8)),
        ("chain A 1, B 0, C 4", chain, plan(&[0, 0, 1], &[1, 0, 4], &[1, 1, 1], 5)),
        ("64 labels, each paired below the top", most, plan(&[0; 64], &[9; 64], &[1; 64], 576)),
        ("65 labels, each paired below the top", too_many, Err(5)),
        ("64 labels in a chain", chained, plan(&up_to, &[65_535; 64], &[1; 64], 4_194_240)),
        ("64 labels in two layers", layers, Ok(in_layers)),
    ]
}

/// Document 01's trees, and the limits: a policy, what stands in the tree file, and the answer. The last is the
/// largest total there is: 65,535 accounts at each of 64 labels in a chain, holding 1, 63, 62, .. 1 keys.
fn trees_by_hand() -> Vec<(Vec<u8>, Vec<u8>, Result<(u32, bool), u8>)> {
    let e = files::written_e(&files::E_PAIRS);
    let refused = files::written_e(&files::E_PAIRS[..2]);
    let chain = files::written(&[("A", 1), ("B", 0), ("C", 4)], &[(0, 1), (1, 2)]);
    let line: Vec<(u8, u8)> = (1..64).map(|lower| (lower - 1, lower)).collect();
    let tree = |parents: &[u8]| [b"TR", parents].concat();
    vec![
        (e.clone(), tree(&[0, 0, 0, 2]), Ok((17, true))),
        (e.clone(), tree(&[0, 0, 0, 1]), Ok((19, false))),
        (e.clone(), tree(&[0, 0, 0, 0]), Ok((22, false))),
        (e.clone(), tree(&[0, 0, 1, 2]), Err(12)),
        (e.clone(), tree(&[0, 0, 0]), Err(11)),
        (e.clone(), tree(&[0, 0, 0, 2, 0]), Err(11)),
        (e.clone(), tree(&[1, 0, 0, 2]), Err(12)),
        (e.clone(), tree(&[0, 0, 0, 3]), Err(12)),
        (e.clone(), tree(&[0, 0, 0, 4]), Err(12)),
        (e.clone(), tree(&[9, 9, 9]), Err(11)),
        (e.clone(), Vec::new(), Err(2)),
        (e.clone(), b"T".to_vec(), Err(2)),
        (e.clone(), b"TR".to_vec(), Err(11)),
        (e.clone(), b"EN\x09\x09".to_vec(), Err(2)),
        (refused.clone(), tree(&[0, 0, 0, 2]), Err(10)),
        (refused, Vec::new(), Err(10)),
        (files::written(&[("A", 7)], &[]), tree(&[0]), Ok((7, true))),
        (chain.clone(), tree(&[0, 0, 0]), Ok((5, true))),
        (chain, tree(&[0, 0, 1]), Ok((5, true))),
        (files::numbered(64, 65_535, &line), tree(&[0; 64]), Ok((132_184_095, false))),
    ]
}

/// The sentences that document 01 checked by hand, asked of the library and of the second implementation.
fn by_hand(counts: &mut Counts) -> bool {
    let mut asked = Asked::new("plans, trees, texts and drawings, document 01's and others checked by hand", counts);
    for (name, file, answer) in plans_by_hand() {
        asked.group.case(|| format!("{name}, second alone"), tree::plan(&file), answer.clone());
        asked.plan(&file, answer.clone());
        for form in &FORMS {
            asked.text(form, &file, &(form.second)(&file), 8192);
            if let Err(number) = answer {
                asked.text(form, &file, &Err(number), 8192);
                asked.text(form, &file, &Err(number), 0);
            }
        }
    }
    for (file, offered, answer) in trees_by_hand() {
        let what = || format!("tree {}, second alone", hex(&offered));
        asked.group.case(what, tree::weigh(&file, &offered), answer);
        asked.weigh(&file, &offered, answer);
    }
    let e = files::written_e(&files::E_PAIRS);
    for (form, text) in [(TEXT, E_TEXT), (DOT, E_DOT), (GROWTH, E_GROWTH)] {
        let expected = Ok(text.as_bytes().to_vec());
        asked.group.case(|| format!("{} of E, second alone", form.name), &(form.second)(&e), &expected);
        for room in 0..text.len() + 9 {
            asked.text(&form, &e, &expected, room);
        }
    }
    asked.report()
}

/// For each label its parents of least weight, weights counted as document 01 says.
fn least_parents(planned: &Planned) -> Vec<Vec<usize>> {
    (0..planned.labels()).map(|m| planned.least_parents(m)).collect()
}

/// Whether every label but the top hangs from one of these parents.
fn hangs_from(parents: &[Vec<usize>], tree: &[usize]) -> bool {
    (1..tree.len()).all(|m| parents[m].contains(&tree[m]))
}

/// The plan that trying everything leads to: of the trees with the fewest keys, the one in which each label's
/// parent has the highest number. The weights are those that document 01 counts.
fn tried_plan(planned: &Planned, top: u16, tried: &[Tried], fewest: u32) -> Plan {
    let least: Vec<&Tried> = tried.iter().filter(|one| one.total == fewest).collect();
    let highest = |m: usize| least.iter().map(|one| one.tree[m]).max().unwrap();
    let tree: Vec<usize> = (0..planned.labels()).map(highest).collect();
    let chosen = tried.iter().find(|one| one.tree == tree).unwrap();
    let weight = |m: usize| if m == 0 { top as u32 } else { planned.weight(tree[m], m) };
    Plan {
        parents: tree.iter().map(|parent| *parent as u8).collect(),
        weights: (0..tree.len()).map(weight).collect(),
        sizes: chosen.sizes.clone(),
        total: chosen.total,
    }
}

/// Compares a small policy with what trying every tree and every set gives.
fn tried_policy(asked: &mut Asked, made: &Policy) {
    let file = made.to_bytes();
    let planned = Planned::new(made);
    let tried = brute::every_tree_tried(made);
    let fewest = tried.iter().map(|one| one.total).min().unwrap();
    let plan = tried_plan(&planned, made.counts[0], &tried, fewest);
    asked.group.case(|| format!("total of the plan of {}", hex(&file)), plan.total, fewest);
    asked.group.case(|| format!("plan of {}, second alone", hex(&file)), planned.plan.clone(), plan.clone());
    asked.plan(&file, Ok(plan));
    let least = least_parents(&planned);
    for one in &tried {
        let what = || format!("least weights of tree {:?} of {}", one.tree, hex(&file));
        asked.group.case(what, hangs_from(&least, &one.tree), one.total == fewest);
        asked.weigh(&file, &files::tree_file(&one.tree), Ok((one.total, one.total == fewest)));
    }
    for form in &FORMS {
        let text = (form.second)(&file);
        asked.text(form, &file, &text, text.as_ref().map_or(0, Vec::len));
    }
}

/// Every set of pairs over up to six labels; over up to five, with several counts.
fn tried_every_order(random: &mut Random, counts: &mut Counts) -> bool {
    let mut asked = Asked::new("every order of up to 6 labels, every tree and set tried", counts);
    for labels in 1..=6 {
        for _ in 0..[40, 40, 40, 12, 4, 1][labels - 1] {
            for made in files::every_order(random, labels) {
                tried_policy(&mut asked, &made);
            }
        }
    }
    asked.report()
}

fn tried_shapes(random: &mut Random, counts: &mut Counts) -> bool {
    let mut asked = Asked::new("policies of 7 labels in all shapes, every tree and set tried", counts);
    for _ in 0..3000 {
        let more = random.below(8);
        tried_policy(&mut asked, &files::shaped(random, brute::MOST_LABELS, more));
    }
    asked.report()
}

/// Every byte string behind `TR` as long as the label count, of bytes up to that count.
fn every_tree_file(random: &mut Random, counts: &mut Counts) -> bool {
    let mut asked = Asked::new("every tree file over every order of up to 4 labels", counts);
    for labels in 1..=4u32 {
        for made in files::every_order(random, labels as usize) {
            let (file, planned) = (made.to_bytes(), Planned::new(&made));
            for number in 0..(labels as usize + 1).pow(labels) {
                let byte = |m: u32| number / (labels as usize + 1).pow(m) % (labels as usize + 1);
                let offered = files::tree_file(&(0..labels).map(byte).collect::<Vec<usize>>());
                asked.weigh(&file, &offered, planned.weigh(&offered));
            }
        }
    }
    asked.report()
}

fn larger(random: &mut Random, counts: &mut Counts) -> bool {
    let mut asked = Asked::new("policies of up to 64 labels and 512 pairs, their trees, texts and drawings", counts);
    for i in 0..1500 {
        let made = files::any_size(random, i);
        let (file, planned) = (made.to_bytes(), Planned::new(&made));
        asked.plan(&file, Ok(planned.plan.clone()));
        let least = least_parents(&planned);
        let parents: Vec<usize> = planned.plan.parents.iter().map(|parent| *parent as usize).collect();
        let mut trees = vec![parents.clone(), vec![0; parents.len()]];
        for _ in 0..3 {
            let other = files::any_tree(random, &planned);
            let mut near = parents.clone();
            let m = random.below(near.len());
            near[m] = other[m];
            trees.extend([other, near]);
        }
        for tree in trees {
            let offered = files::tree_file(&tree);
            let weights: u32 = (1..tree.len()).map(|m| planned.weight(tree[m], m)).sum();
            let by_weights = made.counts[0] as u32 + weights;
            let what = || format!("total by weights of {:?} of {}", tree, hex(&file));
            asked.group.case(what, by_weights, planned.total(&tree));
            let what = || format!("least weights of {:?} of {}", tree, hex(&file));
            asked.group.case(what, hangs_from(&least, &tree), by_weights == planned.plan.total);
            asked.weigh(&file, &offered, planned.weigh(&offered));
        }
        asked.texts(random, &file);
    }
    asked.report()
}

/// One tree file in every length to 70, cut or continued.
fn every_length(random: &mut Random, planned: &Planned) -> Vec<Vec<u8>> {
    let mut list = Vec::new();
    for length in 0..=70 {
        for behind in [0, 1, 255, random.byte()] {
            let mut file = files::tree_file(&files::any_tree(random, planned));
            file.resize(length, behind);
            list.push(file);
        }
        list.push(files::noise(random, length));
        list.push([b"TR".to_vec(), random.bytes(length)].concat());
    }
    list
}

/// One tree file with every byte in every place.
fn every_byte(random: &mut Random, planned: &Planned) -> Vec<Vec<u8>> {
    let file = files::tree_file(&files::any_tree(random, planned));
    let mut list = Vec::new();
    for at in 0..file.len() {
        for byte in 0..=255 {
            let mut changed = file.clone();
            changed[at] = byte;
            list.push(changed);
        }
    }
    list
}

fn tree_files(random: &mut Random, counts: &mut Counts) -> bool {
    let mut asked = Asked::new("tree files of every length to 70, with every byte, damaged", counts);
    for i in 0..600 {
        let made = files::any_size(random, [0, 3, 12, 63].get(i).copied().unwrap_or(i));
        let (file, planned) = (made.to_bytes(), Planned::new(&made));
        let mut offered: Vec<Vec<u8>> = (0..24).map(|_| files::damaged_tree(random, &planned)).collect();
        if i % 10 == 0 {
            offered.extend(every_length(random, &planned));
        }
        if i < 4 {
            offered.extend(every_byte(random, &planned));
        }
        for tree in offered {
            asked.weigh(&file, &tree, planned.weigh(&tree));
        }
    }
    asked.report()
}

fn refused(random: &mut Random, counts: &mut Counts) -> bool {
    let mut asked = Asked::new("refused policies: plans, trees of every kind, texts and drawings", counts);
    for _ in 0..6000 {
        let (file, number) = files::refused_policy(random);
        let other = files::any_size(random, 100);
        let planned = Planned::new(&other);
        asked.plan(&file, Err(number));
        let plans: Vec<usize> = planned.plan.parents.iter().map(|parent| *parent as usize).collect();
        let length = random.below(70);
        let trees = [
            files::tree_file(&plans),
            files::damaged_tree(random, &planned),
            files::noise(random, length),
            Vec::new(),
        ];
        for tree in trees {
            asked.weigh(&file, &tree, Err(number));
        }
        asked.texts(random, &file);
    }
    asked.report()
}

/// Every room from none to some bytes more than the text.
fn rooms(random: &mut Random, counts: &mut Counts) -> bool {
    let mut asked = Asked::new("texts and drawings into buffers of every length", counts);
    for form in &FORMS {
        for i in [0, 1, 3, 7, 20, 63] {
            let file = files::any_size(random, i).to_bytes();
            let text = (form.second)(&file);
            for room in 0..text.as_ref().map_or(0, Vec::len) + 70 {
                asked.text(form, &file, &text, room);
            }
            asked.text(form, &file, &text, 65_536);
        }
        for _ in 0..200 {
            let (file, number) = files::refused_policy(random);
            for room in 0..30 {
                asked.text(form, &file, &Err(number), room);
            }
        }
    }
    asked.report()
}

pub fn groups(random: &mut Random, counts: &mut Counts) -> Vec<bool> {
    vec![
        by_hand(counts),
        tried_every_order(random, counts),
        tried_shapes(random, counts),
        every_tree_file(random, counts),
        larger(random, counts),
        tree_files(random, counts),
        rooms(random, counts),
        refused(random, counts),
    ]
}
