//! Every operation of the compiled library beside a plain Rust program for the same job, SHA-256, HMAC, seal and open
//! beside C and OpenSSL too, each from the input's bytes to the answer. All of a row run in turn, round after round; a
//! time is that of the median round, and a ratio the median of the rounds' ratios. A ratio below 1 says that ours is
//! the faster.
//!
//! bench          one table of all operations
//! bench growth   how the cost of some grows with labels and pairs

use std::hint::black_box;
use std::time::Instant;

mod envelope;
mod hash;
#[allow(dead_code)]
#[path = "../compare/library.rs"]
mod library;
mod ours;
mod plan;
#[allow(dead_code)]
#[path = "../compare/policy.rs"]
mod policy;
mod policies;
mod rosters;
mod sealing;
mod yardsticks;

use policies::{chain, deep, full, growing, roster, two_layers};

const ROUNDS: usize = 61;

/// About how long a round of calls of one version takes, in nanoseconds.
const ROUND: f64 = 2e6;

type Version<'a, T> = Box<dyn FnMut() -> T + 'a>;

/// The time of one call in nanoseconds, over so many calls.
fn timed<T>(run: &mut Version<T>, calls: usize) -> f64 {
    let start = Instant::now();
    for _ in 0..calls {
        black_box(run());
    }
    start.elapsed().as_nanos() as f64 / calls as f64
}

fn median(list: impl Iterator<Item = f64>) -> f64 {
    let mut list: Vec<f64> = list.collect();
    list.sort_by(f64::total_cmp);
    list[list.len() / 2]
}

/// The microseconds that a call of each version takes, and the first's time as a part of each one's. All have to give
/// the same.
fn measure<T: PartialEq + std::fmt::Debug>(what: &str, versions: &mut [Version<T>]) -> (Vec<f64>, Vec<f64>) {
    let answer = versions[0]();
    for version in &mut *versions {
        assert_eq!(version(), answer, "{what}: the answers differ");
    }
    let one = timed(&mut versions[1], 20);
    let calls = (ROUND / one).ceil() as usize;
    let mut round = || versions.iter_mut().map(|version| timed(version, calls)).collect::<Vec<f64>>();
    let rounds: Vec<Vec<f64>> = (0..=ROUNDS).map(|_| round()).skip(1).collect();
    let each = 0..rounds[0].len();
    let times = each.clone().map(|v| median(rounds.iter().map(|round| round[v])) / 1000.0);
    let ratios = each.map(|v| median(rounds.iter().map(|round| round[0] / round[v])));
    (times.collect(), ratios.collect())
}

/// Measures the versions (ours, Rust, and where there are any C and OpenSSL) and prints the row.
fn row<T: PartialEq + std::fmt::Debug>(what: &str, mut versions: Vec<Version<T>>) {
    let (times, ratios) = measure(what, &mut versions);
    let shown = |of: &[f64], version: usize| of.get(version).map_or("-".to_string(), |number| format!("{number:.2}"));
    let time = |version: usize| shown(&times, version);
    let ratio = |version: usize| shown(&ratios, version);
    println!("{}", line(what, [time(0), time(1), ratio(1), time(2), ratio(2), time(3)]));
}

/// A line of the table.
fn line(what: &str, [ours, rust, to_rust, c, to_c, openssl]: [String; 6]) -> String {
    format!("{what:<45}{ours:>8}{rust:>8}{to_rust:>11}{c:>8}{to_c:>8}{openssl:>9}")
}

fn two<'a, T>(ours: impl FnMut() -> T + 'a, plain: impl FnMut() -> T + 'a) -> Vec<Version<'a, T>> {
    vec![Box::new(ours), Box::new(plain)]
}

const ROOT: [u8; 32] = *b"0123456789ABCDEF0123456789ABCDEF";

fn hash_rows() {
    let bytes: Vec<u8> = (0..65_536).map(|i| (i * 7 + i / 251) as u8).collect();
    for length in [65_536, 64] {
        let message = black_box(&bytes[..length]);
        let mut versions = two(|| ours::sha256(message), || hash::sha256(message));
        versions.extend(yardsticks::sha256(message));
        row(&format!("sha256, {length} bytes"), versions);
    }
    let (key, message) = (black_box(&ROOT), black_box(&b"MODULE00"[..]));
    let mut versions = two(|| ours::hmac_sha256(key, message), || hash::hmac_sha256(key, message));
    versions.extend(yardsticks::hmac_sha256(key, message));
    row("hmac_sha256, 32-byte key, 8 bytes", versions);
}

fn policy_rows() {
    let (full, tree) = full();
    let (policy, tree) = (black_box(&full[..]), black_box(&tree[..]));
    row("read_policy, 64 labels and 512 pairs", two(|| ours::read_policy(policy), || plan::read_policy(policy)));
    let records = two(|| ours::policy_records(policy), || policy::records_read(policy));
    row("policy_records, the same", records);
    row("order, the same", two(|| ours::order(policy), || plan::order_rows(policy)));
    row("plan, the same", two(|| ours::plan(policy), || plan::plan(policy)));
    row("weigh, the same", two(|| ours::weigh(policy, tree), || plan::weigh(policy, tree)));
    written("plan_text, the same", policy, ours::plan_text, plan::plan_text);
    written("plan_dot, the same", policy, ours::plan_dot, plan::plan_dot);
    row("growth, the same", two(|| ours::growth(policy), || plan::growth(policy)));
    written("growth_text, the same", policy, ours::growth_text, plan::growth_text);
}

type Writer = fn(&[u8], &mut [u8]) -> library::Written;

fn written(what: &str, policy: &[u8], ours: Writer, plain: Writer) {
    let (mut our_buffer, mut buffer) = ([0; 8192], [0; 8192]);
    row(what, two(|| ours(policy, &mut our_buffer), || plain(policy, &mut buffer)));
    assert_eq!(our_buffer, buffer, "{what}: the buffers differ");
}

/// The issuing of an envelope with so many secrets for the first account at a label.
fn issue_row(what: &str, policy: &[u8], name: &[u8], secrets: usize) {
    let (mut our_buffer, mut buffer) = ([0; 2700], [0; 2700]);
    let (policy, name, root) = (black_box(policy), black_box(name), black_box(&ROOT));
    let ours = || ours::issue(policy, name, 1, root, &mut our_buffer);
    row(what, two(ours, || envelope::issue(policy, name, 1, root, &mut buffer)));
    assert_eq!(our_buffer, buffer, "{what}: the buffers differ");
    assert_eq!(envelope::secrets(&issued(policy, name)), secrets);
}

fn issued(policy: &[u8], name: &[u8]) -> Vec<u8> {
    let mut buffer = [0; 2700];
    let length = envelope::issue(policy, name, 1, &ROOT, &mut buffer).length;
    buffer[..length].to_vec()
}

fn issuer_rows() {
    let (full, _) = full();
    let (policy, root) = (black_box(&full[..]), black_box(&ROOT));
    let name = black_box(&b"MODULE63"[..]);
    let key = two(|| ours::issuer_key(policy, name, root), || envelope::issuer_key(policy, name, root));
    row("issuer_key, the same, the last label", key);
    issue_row("issue, the same, to the top", policy, b"MODULE00", 1);
    issue_row("issue, 55 secrets, two steps from the root", &two_layers(), b"LABEL02 ", 55);
    issue_row("issue, 31 secrets, 33 steps from the root", &deep(), b"LABEL33 ", 31);
    row("fingerprint", two(|| ours::fingerprint(root), || hash::fingerprint(root)));
}

/// A roster of 4,096 joins and as many moves; the envelope goes to an account that is on the last label.
fn roster_rows() {
    let ((policy, _), file) = (full(), roster());
    let (policy, file) = (black_box(&policy[..]), black_box(&file[..]));
    let (root, name) = (black_box(&ROOT), black_box(b"MODULE63"));
    let read = two(|| ours::read_roster(policy, file), || rosters::read_roster(policy, file));
    row("read_roster, 4,096 joins, 4,096 moves", read);
    row("plan_roster, the same", two(|| ours::plan_roster(policy, file), || rosters::plan_roster(policy, file)));
    let read = rosters::read_roster(policy, file);
    let account = 1 + read.places.iter().position(|place| *place == 63).unwrap() as u32;
    let (mut our_buffer, mut buffer) = ([0; 2700], [0; 2700]);
    let ours = || ours::issue_roster(policy, file, name, account, root, &mut our_buffer);
    let plain = || rosters::issue_roster(policy, file, name, account, root, &mut buffer);
    row("issue_roster, the same, to the last label", two(ours, plain));
    assert_eq!(our_buffer, buffer, "issue_roster: the buffers differ");
    assert_eq!(envelope::secrets(&buffer[..54]), 1);
}

fn derive_row(what: &str, envelope: &[u8], name: &[u8], applications: u8) {
    assert_eq!(envelope::derive(envelope, name).applications, applications);
    let (envelope, name) = (black_box(envelope), black_box(name));
    row(what, two(|| ours::derive(envelope, name), || envelope::derive(envelope, name)));
}

fn desk_rows() {
    let top = issued(&chain(), b"LABEL00 ");
    derive_row("derive, 64 records, 64 applications", &top, b"LABEL63 ", 64);
    derive_row("derive, 64 records, 1 application", &top, b"LABEL00 ", 1);
    let envelope = black_box(&top[..]);
    row("labels, 64 records", two(|| ours::labels(envelope), || envelope::labels(envelope)));
    let records = two(|| ours::envelope_records(envelope), || envelope::envelope_records(envelope));
    row("envelope_records, 64 records", records);
}

/// Texts sealed for the only label of a policy, and opened with the envelope of an account there: one HMAC makes the
/// key. C and OpenSSL are given the secret, and read neither policy nor envelope.
fn sealed_rows() {
    let (policy, name, nonce) = (black_box(&b"LBMODULE00\0\x05"[..]), black_box(b"MODULE00"), black_box(&[9; 12]));
    let (envelope, root) = (issued(policy, name), black_box(&ROOT));
    let bytes: Vec<u8> = (0..32_768).map(|i| (i * 7 + i / 251) as u8).collect();
    for length in [32_768, 64] {
        let text = black_box(&bytes[..length]);
        let [mut ours, mut rust, mut c, mut openssl] = [(); 4].map(|_| vec![0; length + 38]);
        let with = yardsticks::Sealing { secret: root, name, nonce, text };
        let mut versions = two(
            || ours::seal(policy, name, root, nonce, text, &mut ours),
            || sealing::seal(policy, name, root, nonce, text, &mut rust),
        );
        versions.extend(yardsticks::seal(with, &mut c, &mut openssl));
        let openssl_ran = versions.len() == 4;
        row(&format!("seal, {length} bytes, a policy of one label"), versions);
        let same = ours == rust && ours == c && (!openssl_ran || ours == openssl);
        assert!(same, "seal: the files differ");
        let (file, envelope) = (black_box(&ours[..]), black_box(&envelope[..]));
        let [mut ours, mut rust, mut c, mut openssl] = [(); 4].map(|_| vec![0; length]);
        let mut versions =
            two(|| ours::open(envelope, file, &mut ours), || sealing::open(envelope, file, &mut rust));
        versions.extend(yardsticks::open(root, file, &mut c, &mut openssl));
        row(&format!("open, {length} bytes, an envelope of one record"), versions);
        let same = ours == text && rust == text && c == text && (!openssl_ran || openssl == text);
        assert!(same, "open: the texts differ");
    }
}

/// A measured cell of the second table: ours in microseconds, and the ratio.
fn cell<T: PartialEq + std::fmt::Debug>(mut versions: Vec<Version<T>>) -> String {
    let (times, ratios) = measure("growth", &mut versions);
    format!("{:>9.2} ({:.2})", times[0], ratios[1])
}

/// Couples of labels stand one strictly above the other; the issue is to the top.
fn growth() {
    println!("microseconds a call of ours, and in brackets ours/Rust");
    let heads = ["read_policy", "plan", "weigh", "issue"];
    println!("labels pairs couples{}", heads.map(|head| format!("{head:>16}")).concat());
    for (labels, pairs) in [(8, 64), (16, 64), (32, 64), (64, 64), (64, 128), (64, 256), (64, 512)] {
        let (policy, tree) = growing(labels, pairs);
        let (policy, tree, root) = (black_box(&policy[..]), black_box(&tree[..]), black_box(&ROOT));
        let (mut our_buffer, mut buffer, name) = ([0; 2700], [0; 2700], black_box(b"MODULE00"));
        let ours = || ours::issue(policy, name, 1, root, &mut our_buffer);
        let issue = two(ours, || envelope::issue(policy, name, 1, root, &mut buffer));
        let cells = [
            cell(two(|| ours::read_policy(policy), || plan::read_policy(policy))),
            cell(two(|| ours::plan(policy), || plan::plan(policy))),
            cell(two(|| ours::weigh(policy, tree), || plan::weigh(policy, tree))),
            cell(issue),
        ];
        let entries = ours::order(policy).rows.iter().flatten().filter(|entry| **entry).count();
        println!("{labels:>6}{pairs:>6}{:>8}{}", entries - labels, cells.concat());
    }
}

fn main() {
    if std::env::args().nth(1).as_deref() == Some("growth") {
        return growth();
    }
    let heads = ["ours", "Rust", "ours/Rust", "C", "ours/C", "OpenSSL"];
    println!("{}", line("microseconds a call", heads.map(String::from)));
    hash_rows();
    policy_rows();
    issuer_rows();
    roster_rows();
    desk_rows();
    sealed_rows();
}
