//! The proved library, through its C interface, as it answers.

use crate::library::*;

pub fn sha256(message: &[u8]) -> Digest {
    unsafe { yendlowa_sha256(message.as_ptr(), message.len()) }
}

pub fn hmac_sha256(key: &[u8], message: &[u8]) -> Digest {
    unsafe { yendlowa_hmac_sha256(key.as_ptr(), key.len(), message.as_ptr(), message.len()) }
}

pub fn read_policy(policy: &[u8]) -> Policy {
    unsafe { yendlowa_read_policy(policy.as_ptr(), policy.len()) }
}

pub fn policy_records(policy: &[u8]) -> usize {
    unsafe { yendlowa_policy_records(policy.as_ptr(), policy.len()) }
}

pub fn order(policy: &[u8]) -> Rows {
    unsafe { yendlowa_order(policy.as_ptr(), policy.len()) }
}

pub fn plan(policy: &[u8]) -> Plan {
    unsafe { yendlowa_plan(policy.as_ptr(), policy.len()) }
}

pub fn weigh(policy: &[u8], tree: &[u8]) -> Weighed {
    unsafe { yendlowa_weigh(policy.as_ptr(), policy.len(), tree.as_ptr(), tree.len()) }
}

pub fn plan_text(policy: &[u8], out: &mut [u8]) -> Written {
    unsafe { yendlowa_plan_text(policy.as_ptr(), policy.len(), out.as_mut_ptr(), out.len()) }
}

pub fn plan_dot(policy: &[u8], out: &mut [u8]) -> Written {
    unsafe { yendlowa_plan_dot(policy.as_ptr(), policy.len(), out.as_mut_ptr(), out.len()) }
}

pub fn growth(policy: &[u8]) -> Growth {
    unsafe { yendlowa_growth(policy.as_ptr(), policy.len()) }
}

pub fn growth_text(policy: &[u8], out: &mut [u8]) -> Written {
    unsafe { yendlowa_growth_text(policy.as_ptr(), policy.len(), out.as_mut_ptr(), out.len()) }
}

pub fn issuer_key(policy: &[u8], name: &[u8], root: &[u8]) -> IssuerKey {
    let (policy, length) = (policy.as_ptr(), policy.len());
    unsafe { yendlowa_issuer_key(policy, length, name.as_ptr(), name.len(), root.as_ptr(), root.len()) }
}

pub fn issue(policy: &[u8], name: &[u8], account: u32, root: &[u8], envelope: &mut [u8]) -> Written {
    let (policy, length) = (policy.as_ptr(), policy.len());
    let (name, name_length, root, root_length) = (name.as_ptr(), name.len(), root.as_ptr(), root.len());
    let (into, room) = (envelope.as_mut_ptr(), envelope.len());
    unsafe { yendlowa_issue(policy, length, name, name_length, account, root, root_length, into, room) }
}

pub fn read_roster(policy: &[u8], roster: &[u8]) -> Roster {
    unsafe { yendlowa_read_roster(policy.as_ptr(), policy.len(), roster.as_ptr(), roster.len()) }
}

pub fn plan_roster(policy: &[u8], roster: &[u8]) -> Plan {
    unsafe { yendlowa_plan_roster(policy.as_ptr(), policy.len(), roster.as_ptr(), roster.len()) }
}

pub fn issue_roster(
    policy: &[u8],
    roster: &[u8],
    name: &[u8],
    account: u32,
    root: &[u8],
    out: &mut [u8],
) -> Written {
    let (policy, length, roster, roster_length) = (policy.as_ptr(), policy.len(), roster.as_ptr(), roster.len());
    let (name, name_length, root, root_length) = (name.as_ptr(), name.len(), root.as_ptr(), root.len());
    let (into, room) = (out.as_mut_ptr(), out.len());
    unsafe {
        yendlowa_issue_roster(
            policy,
            length,
            roster,
            roster_length,
            name,
            name_length,
            account,
            root,
            root_length,
            into,
            room,
        )
    }
}

pub fn fingerprint(root: &[u8]) -> RootFingerprint {
    unsafe { yendlowa_fingerprint(root.as_ptr(), root.len()) }
}

pub fn seal(policy: &[u8], name: &[u8], root: &[u8], nonce: &[u8], text: &[u8], out: &mut [u8]) -> Written {
    let (policy, length, name, name_length) = (policy.as_ptr(), policy.len(), name.as_ptr(), name.len());
    let (root, root_length, nonce, nonce_length) = (root.as_ptr(), root.len(), nonce.as_ptr(), nonce.len());
    let (text, text_length, into, room) = (text.as_ptr(), text.len(), out.as_mut_ptr(), out.len());
    unsafe {
        yendlowa_seal(
            policy,
            length,
            name,
            name_length,
            root,
            root_length,
            nonce,
            nonce_length,
            text,
            text_length,
            into,
            room,
        )
    }
}

pub fn open(envelope: &[u8], file: &[u8], out: &mut [u8]) -> Written {
    let (envelope, length, into, room) = (envelope.as_ptr(), envelope.len(), out.as_mut_ptr(), out.len());
    unsafe { yendlowa_open(envelope, length, file.as_ptr(), file.len(), into, room) }
}

pub fn derive(envelope: &[u8], name: &[u8]) -> Derived {
    unsafe { yendlowa_derive(envelope.as_ptr(), envelope.len(), name.as_ptr(), name.len()) }
}

pub fn labels(envelope: &[u8]) -> Labels {
    unsafe { yendlowa_labels(envelope.as_ptr(), envelope.len()) }
}

pub fn envelope_records(envelope: &[u8]) -> usize {
    unsafe { yendlowa_envelope_records(envelope.as_ptr(), envelope.len()) }
}
