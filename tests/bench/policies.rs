//! Policy files, and a roster file, to measure on.

/// A linear congruential generator.
fn generator() -> impl FnMut(usize) -> usize {
    let mut state = 1u64;
    move |bound| {
        state = state.wrapping_mul(6_364_136_223_846_793_005).wrapping_add(1_442_695_040_888_963_407);
        (state >> 33) as usize % bound
    }
}

fn pair(upper: u8, lower: u8) -> [u8; 4] {
    [b'O', b'V', upper, lower]
}

fn label(number: usize, accounts: usize) -> Vec<u8> {
    [format!("LBMODULE{number:02}").as_bytes(), &(accounts as u16).to_be_bytes()].concat()
}

/// 64 labels, each under eight or nine of the 24 before it, and a tree that hangs each from one of these.
pub fn full() -> (Vec<u8>, Vec<u8>) {
    let mut below = generator();
    let (mut labels, mut pairs, mut tree) = (Vec::new(), Vec::new(), b"TR\0".to_vec());
    for lower in 0..64 {
        labels.extend(label(lower, below(65_536)));
        let mut uppers = Vec::new();
        while uppers.len() < lower.min(8 + (lower >= 28) as usize) {
            let upper = (lower - 1 - below(lower.min(24))) as u8;
            if !uppers.contains(&upper) {
                uppers.push(upper);
                pairs.extend(pair(upper, lower as u8));
            }
        }
        tree.extend(uppers.first());
    }
    assert_eq!(pairs.len(), 4 * 512);
    ([labels, pairs].concat(), tree)
}

/// So many labels, each under some label before it, further pairs at random, so many in all, and a tree that hangs
/// each label from the first of its uppers.
pub fn growing(labels: usize, pairs: usize) -> (Vec<u8>, Vec<u8>) {
    let mut below = generator();
    let mut file: Vec<u8> = (0..labels).flat_map(|number| label(number, 1 + below(65_535))).collect();
    let mut tree = b"TR\0".to_vec();
    for number in 1..=pairs {
        let lower = if number < labels { number } else { 1 + below(labels - 1) };
        let upper = below(lower) as u8;
        if number < labels {
            tree.push(upper);
        }
        file.extend(pair(upper, lower as u8));
    }
    (file, tree)
}

/// 64 labels with 65,535 accounts each, and those pairs.
fn numbered(pairs: impl Iterator<Item = (u8, u8)>) -> Vec<u8> {
    let label = |label: u8| [format!("LBLABEL{label:02} ").as_bytes(), &[255; 2]].concat();
    (0..64).flat_map(label).chain(pairs.flat_map(|(upper, lower)| pair(upper, lower))).collect()
}

/// 9 labels below the top and 54 below each of these. In the plan the 54 hang from label 9, so that each of the
/// other 8 holds 54 secrets beside its own.
pub fn two_layers() -> Vec<u8> {
    let middle = (1..10).map(|middle| (0, middle));
    numbered(middle.chain((10..64).flat_map(|lower| (1..10).map(move |middle| (middle, lower)))))
}

/// A chain of 33 labels, one label beside it, and 30 below both ends. In the plan the 30 hang from the chain's
/// end, so that the label beside it holds their secrets.
pub fn deep() -> Vec<u8> {
    let chain = (1..33).map(|lower| (lower - 1, lower));
    let lowest = (34..64).flat_map(|lower| [(32, lower), (33, lower)]);
    numbered(chain.chain([(0, 33)]).chain(lowest))
}

/// Each label below the one before it.
pub fn chain() -> Vec<u8> {
    numbered((1..64).map(|lower| (lower - 1, lower)))
}

/// 4,096 accounts that join labels of `full`, and a move of each to another label.
pub fn roster() -> Vec<u8> {
    let mut below = generator();
    let mut record = |mark: &str, number: u16| {
        [mark.as_bytes(), &number.to_be_bytes(), format!("MODULE{:02}", below(64)).as_bytes()].concat()
    };
    let joins: Vec<u8> = (1..=4096).flat_map(|number| record("JN", number)).collect();
    let moves: Vec<u8> = (1..=4096).flat_map(|number| record("MV", number)).collect();
    [joins, moves].concat()
}
