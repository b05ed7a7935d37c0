//! The C interface of the proved library. No struct has padding: `zeros` fills the gaps and is always 0.

#[repr(C)]
#[derive(Debug, PartialEq)]
pub struct Digest {
    pub refusal: u8,
    pub bytes: [u8; 32],
}

#[repr(C)]
#[derive(Clone, Copy, Debug, PartialEq)]
pub struct Pair {
    pub upper: u8,
    pub lower: u8,
}

#[repr(C)]
#[derive(Debug, PartialEq)]
pub struct Policy {
    pub refusal: u8,
    pub zeros: [u8; 7],
    pub labels: usize,
    pub pairs: usize,
    pub counts: [u16; 64],
    pub over: [Pair; 512],
}

#[repr(C)]
#[derive(Debug, PartialEq)]
pub struct Rows {
    pub refusal: u8,
    pub rows: [[bool; 64]; 64],
}

#[repr(C)]
#[derive(Debug, PartialEq)]
pub struct Roster {
    pub refusal: u8,
    pub zeros: [u8; 7],
    pub labels: usize,
    pub counts: [u16; 64],
    pub states: [u8; 4096],
    pub places: [u8; 4096],
}

#[repr(C)]
#[derive(Debug, PartialEq)]
pub struct Plan {
    pub refusal: u8,
    pub zeros: [u8; 3],
    pub total: u32,
    pub labels: usize,
    pub parents: [u8; 64],
    pub weights: [u32; 64],
    pub sizes: [u8; 64],
}

#[repr(C)]
#[derive(Debug, PartialEq)]
pub struct Growth {
    pub refusal: u8,
    pub zeros: [u8; 7],
    pub labels: usize,
    pub costs: [u8; 64],
    pub ceilings: [u8; 64],
}

#[repr(C)]
#[derive(Debug, PartialEq)]
pub struct Weighed {
    pub refusal: u8,
    pub least: bool,
    pub zeros: [u8; 2],
    pub total: u32,
}

#[repr(C)]
#[derive(Debug, PartialEq)]
pub struct Written {
    pub refusal: u8,
    pub zeros: [u8; 7],
    pub length: usize,
}

#[repr(C)]
#[derive(Debug, PartialEq)]
pub struct IssuerKey {
    pub refusal: u8,
    pub key: [u8; 32],
}

#[repr(C)]
#[derive(Debug, PartialEq)]
pub struct RootFingerprint {
    pub refusal: u8,
    pub bytes: [u8; 8],
}

#[repr(C)]
#[derive(Debug, PartialEq)]
pub struct Derived {
    pub refusal: u8,
    pub key: [u8; 32],
    pub applications: u8,
}

#[repr(C)]
#[derive(Debug, PartialEq)]
pub struct Labels {
    pub refusal: u8,
    pub zeros: [u8; 5],
    pub account: u16,
    pub labels: usize,
    pub names: [u8; 512],
}

extern "C" {
    pub fn yendlowa_sha256(message: *const u8, length: usize) -> Digest;
    pub fn yendlowa_hmac_sha256(
        key: *const u8,
        key_length: usize,
        message: *const u8,
        message_length: usize,
    ) -> Digest;
    pub fn yendlowa_read_policy(policy: *const u8, length: usize) -> Policy;
    pub fn yendlowa_order(policy: *const u8, length: usize) -> Rows;
    pub fn yendlowa_plan(policy: *const u8, length: usize) -> Plan;
    pub fn yendlowa_weigh(
        policy: *const u8,
        policy_length: usize,
        tree: *const u8,
        tree_length: usize,
    ) -> Weighed;
    pub fn yendlowa_plan_text(
        policy: *const u8,
        policy_length: usize,
        out: *mut u8,
        out_length: usize,
    ) -> Written;
    pub fn yendlowa_plan_dot(
        policy: *const u8,
        policy_length: usize,
        out: *mut u8,
        out_length: usize,
    ) -> Written;
    pub fn yendlowa_growth(policy: *const u8, length: usize) -> Growth;
    pub fn yendlowa_growth_text(
        policy: *const u8,
        policy_length: usize,
        out: *mut u8,
        out_length: usize,
    ) -> Written;
    pub fn yendlowa_policy_records(policy: *const u8, length: usize) -> usize;
    pub fn yendlowa_issuer_key(
        policy: *const u8,
        policy_length: usize,
        name: *const u8,
        name_length: usize,
        root: *const u8,
        root_length: usize,
    ) -> IssuerKey;
    pub fn yendlowa_issue(
        policy: *const u8,
        policy_length: usize,
        name: *const u8,
        name_length: usize,
        account: u32,
        root: *const u8,
        root_length: usize,
        envelope: *mut u8,
        envelope_length: usize,
    ) -> Written;
    pub fn yendlowa_seal(
        policy: *const u8,
        policy_length: usize,
        name: *const u8,
        name_length: usize,
        root: *const u8,
        root_length: usize,
        nonce: *const u8,
        nonce_length: usize,
        text: *const u8,
        text_length: usize,
        out: *mut u8,
        out_length: usize,
    ) -> Written;
    pub fn yendlowa_read_roster(
        policy: *const u8,
        policy_length: usize,
        roster: *const u8,
        roster_length: usize,
    ) -> Roster;
    pub fn yendlowa_roster_records(
        policy: *const u8,
        policy_length: usize,
        roster: *const u8,
        roster_length: usize,
    ) -> usize;
    pub fn yendlowa_roster_text(
        policy: *const u8,
        policy_length: usize,
        roster: *const u8,
        roster_length: usize,
        out: *mut u8,
        out_length: usize,
    ) -> Written;
    pub fn yendlowa_count_policy(
        policy: *const u8,
        policy_length: usize,
        roster: *const u8,
        roster_length: usize,
        out: *mut u8,
        out_length: usize,
    ) -> Written;
    pub fn yendlowa_plan_roster(
        policy: *const u8,
        policy_length: usize,
        roster: *const u8,
        roster_length: usize,
    ) -> Plan;
    pub fn yendlowa_weigh_roster(
        policy: *const u8,
        policy_length: usize,
        roster: *const u8,
        roster_length: usize,
        tree: *const u8,
        tree_length: usize,
    ) -> Weighed;
    pub fn yendlowa_plan_text_roster(
        policy: *const u8,
        policy_length: usize,
        roster: *const u8,
        roster_length: usize,
        out: *mut u8,
        out_length: usize,
    ) -> Written;
    pub fn yendlowa_plan_dot_roster(
        policy: *const u8,
        policy_length: usize,
        roster: *const u8,
        roster_length: usize,
        out: *mut u8,
        out_length: usize,
    ) -> Written;
    pub fn yendlowa_growth_roster(
        policy: *const u8,
        policy_length: usize,
        roster: *const u8,
        roster_length: usize,
    ) -> Growth;
    pub fn yendlowa_growth_text_roster(
        policy: *const u8,
        policy_length: usize,
        roster: *const u8,
        roster_length: usize,
        out: *mut u8,
        out_length: usize,
    ) -> Written;
    pub fn yendlowa_issuer_key_roster(
        policy: *const u8,
        policy_length: usize,
        roster: *const u8,
        roster_length: usize,
        name: *const u8,
        name_length: usize,
        root: *const u8,
        root_length: usize,
    ) -> IssuerKey;
    pub fn yendlowa_issue_roster(
        policy: *const u8,
        policy_length: usize,
        roster: *const u8,
        roster_length: usize,
        name: *const u8,
        name_length: usize,
        account: u32,
        root: *const u8,
        root_length: usize,
        envelope: *mut u8,
        envelope_length: usize,
    ) -> Written;
    pub fn yendlowa_seal_roster(
        policy: *const u8,
        policy_length: usize,
        roster: *const u8,
        roster_length: usize,
        name: *const u8,
        name_length: usize,
        root: *const u8,
        root_length: usize,
        nonce: *const u8,
        nonce_length: usize,
        text: *const u8,
        text_length: usize,
        out: *mut u8,
        out_length: usize,
    ) -> Written;
    pub fn yendlowa_open(
        envelope: *const u8,
        envelope_length: usize,
        sealed: *const u8,
        sealed_length: usize,
        out: *mut u8,
        out_length: usize,
    ) -> Written;
    pub fn yendlowa_fingerprint(root: *const u8, length: usize) -> RootFingerprint;
    pub fn yendlowa_derive(
        envelope: *const u8,
        envelope_length: usize,
        name: *const u8,
        name_length: usize,
    ) -> Derived;
    pub fn yendlowa_labels(envelope: *const u8, length: usize) -> Labels;
    pub fn yendlowa_envelope_records(envelope: *const u8, length: usize) -> usize;
}
