//! Ask 1 of document 02 changed which of several parents of least weight a label hangs from. The second
//! implementation plans by the rule before it and by the rule in force: what differs, and that it differs only
//! where there is a tie.

use crate::envelope::Issuer;
use crate::files;
use crate::group::{hex, Group};
use crate::policy::Policy;
use crate::random::Random;
use crate::sha256::Sha256;
use crate::tree::{Plan, Planned, Tie};

/// How many there were, and how many of them the two rules give differently.
#[derive(Default)]
struct Differing {
    all: usize,
    other: usize,
}

impl Differing {
    fn add(&mut self, other: bool) {
        self.all += 1;
        self.other += other as usize;
    }

    fn text(&self, what: &str) -> String {
        format!("{} of {} {what}", self.other, self.all)
    }
}

#[derive(Default)]
struct Counts {
    policies: Differing,
    keys: Differing,
    envelopes: Differing,
}

/// For each label whether it hangs elsewhere, or hangs below a label that does: its path from the top is another.
fn moved(before: &Plan, now: &Plan) -> Vec<bool> {
    let mut moved = vec![false];
    for m in 1..now.parents.len() {
        let parent = now.parents[m];
        moved.push(parent != before.parents[m] || moved[parent as usize]);
    }
    moved
}

/// The trees differ at each tie and nowhere else; weights and total agree; each parent now covers its label.
fn trees(group: &mut Group, file: &[u8], before: &Planned, now: &Planned) {
    let same = now.plan.weights == before.plan.weights && now.plan.total == before.plan.total;
    group.holds(|| format!("weights and total of {} are the same", hex(file)), same);
    for m in 1..now.labels() {
        let (parent, former) = (now.plan.parents[m] as usize, before.plan.parents[m] as usize);
        let tie = now.least_parents(m).len() > 1;
        let what = || format!("label {m} of {} hangs elsewhere exactly if it has a tie", hex(file));
        group.holds(what, (parent != former) == tie);
        group.holds(|| format!("the parent of label {m} of {} covers it", hex(file)), now.covers(parent, m));
    }
}

/// A key differs exactly where the path does, an envelope exactly where a key at or below its label does.
fn policy(group: &mut Group, counts: &mut Counts, hash: &Sha256, policy: &Policy, root: [u8; 32]) {
    let file = policy.to_bytes();
    let (before, now) = (Planned::by_rule(policy, Tie::Lowest), Planned::new(policy));
    trees(group, &file, &before, &now);
    let moved = moved(&before.plan, &now.plan);
    let [former, issuer] = [&before, &now].map(|planned| Issuer { hash, policy, planned });
    for l in 0..now.labels() {
        let key = |issuer: &Issuer| issuer.key(&policy.names[l], &root).unwrap();
        let other = key(&issuer) != key(&former);
        counts.keys.add(other);
        let what = || format!("label {l} of {} has another key exactly if its path is another", hex(&file));
        group.holds(what, other == moved[l]);
        let envelope = |issuer: &Issuer| issuer.envelope(l, 1, root).to_bytes();
        let other = envelope(&issuer) != envelope(&former);
        counts.envelopes.add(other);
        let below = (0..now.labels()).any(|m| now.at_or_below(m, l) && moved[m]);
        let what = || format!("label {l} of {} has another envelope exactly if it opens a label whose path is another", hex(&file));
        group.holds(what, other == below);
    }
    counts.policies.add(moved.contains(&true));
}

pub fn groups(random: &mut Random, hash: &Sha256) -> Vec<bool> {
    let mut group = Group::new("policies planned by both rules for ties");
    let mut counts = Counts::default();
    for _ in 0..2000 {
        let (labels, more) = (1 + random.below(16), random.below(20));
        let made = files::shaped(random, labels, more);
        let root = random.bytes(32).try_into().unwrap();
        policy(&mut group, &mut counts, hash, &made, root);
    }
    let Counts { policies, keys, envelopes } = counts;
    group.holds(|| "some policies have a tie and some have none".into(), policies.other > 0 && policies.other < policies.all);
    let differ = [policies.text("policies"), keys.text("keys"), envelopes.text("envelopes")].join(", ");
    vec![group.report(&format!(" (what differs: {differ})"))]
}
