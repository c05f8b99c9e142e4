//! Bundles with something changed: bits flipped; words, columns and rows exchanged; kinds, counts, roots and fuels set; blocks cut or doubled. Most are
//! sealed again, so that numbering and check words are right and the change is what is read.

use second::bundles::block;
use second::dice::Dice;
use std::ops::Range;

/// The payload words of a block.
const PAYLOAD: usize = 254;
/// The header: seven counts, the last of pool bytes, the rows of A, B, main and the forest's root, two fuels.
const HEADER: usize = 13;
const COUNTS: Range<usize> = 0..7;
const POOL: usize = 6;
const ROOTS: Range<usize> = 7..11;
const FUELS: Range<usize> = 11..13;
/// The words of a row of each table, in the order of the counts.
const WIDTHS: [usize; 6] = [1, 3, 4, 4, 5, 4];

const TYPES: usize = 1;
const QUERIES: usize = 2;
const STATEMENTS: usize = 3;
const FOREST: usize = 5;

/// Kinds whose words have the same uses.
const LIKE: [(usize, &[u16]); 8] = [
    (TYPES, &[1, 2, 3]),
    (TYPES, &[5, 6]),
    (QUERIES, &[1, 5, 6]),
    (QUERIES, &[2, 8, 10, 13]),
    (QUERIES, &[7, 11]),
    (STATEMENTS, &[1, 5]),
    (STATEMENTS, &[8, 10, 11, 12, 13]),
    (FOREST, &[2, 3]),
];

/// Words that name no row: labels, names, variables, places in the pool, tests, procedures. Table, kind, column.
const PLAIN: [(usize, u16, usize); 15] = [
    (TYPES, 4, 1),
    (TYPES, 8, 1),
    (QUERIES, 3, 1),
    (QUERIES, 4, 1),
    (QUERIES, 4, 2),
    (QUERIES, 7, 1),
    (QUERIES, 11, 1),
    (QUERIES, 12, 2),
    (STATEMENTS, 6, 1),
    (STATEMENTS, 9, 1),
    (STATEMENTS, 9, 2),
    (STATEMENTS, 14, 1),
    (FOREST, 1, 1),
    (FOREST, 1, 2),
    (FOREST, 4, 1),
];

/// Numbers at which something may change.
const EDGES: [u16; 16] = [
    0,
    1,
    2,
    16,
    17,
    32,
    33,
    512,
    513,
    1023,
    1024,
    2048,
    4096,
    4097,
    16384,
    u16::MAX,
];

/// A bundle like this one, and not the same.
pub fn mutant(dice: &mut Dice, bundle: &[u8]) -> Vec<u8> {
    loop {
        let changed = changed(dice, bundle);
        if changed != bundle {
            return changed;
        }
    }
}

/// The bundle with one change, or a few.
fn changed(dice: &mut Dice, bundle: &[u8]) -> Vec<u8> {
    let mut words = payload(bundle);
    if words.len() < HEADER || dice.once_in(32) {
        return unsealed(dice, bundle.to_vec());
    }
    let gentle = !dice.once_in(3);
    for _ in 0..1 + dice.below(3) {
        change(dice, &mut words, gentle);
    }
    sealed(&words)
}

/// The payload of all whole blocks.
fn payload(bundle: &[u8]) -> Vec<u16> {
    let blocks = bundle.chunks_exact(512);
    let words = blocks.flat_map(|block| block[2..510].chunks(2));
    words.map(|it| u16::from_le_bytes([it[0], it[1]])).collect()
}

/// The payload in blocks, each with its number and its check.
fn sealed(payload: &[u16]) -> Vec<u8> {
    let blocks = payload.chunks(PAYLOAD).zip(1..);
    blocks
        .flat_map(|(words, number)| block(words, number))
        .collect()
}

/// Bytes changed where no seal is made anew.
fn unsealed(dice: &mut Dice, mut bytes: Vec<u8>) -> Vec<u8> {
    match dice.below(4) {
        _ if bytes.is_empty() => bytes.push(0),
        0 => bytes.truncate(dice.below(bytes.len())),
        1 => bytes.extend(vec![0; 1 + dice.below(512)]),
        2 => {
            let last = bytes.len() / 512 * 512;
            bytes.rotate_left(512.min(last));
        }
        _ => {
            let at = dice.below(bytes.len());
            bytes[at] ^= 1 << dice.below(8);
        }
    }
    bytes
}

/// One change of the payload; some find nothing to change. Gentle ones often keep Shape, so that the questions have something to answer.
fn change(dice: &mut Dice, words: &mut Vec<u16>, gentle: bool) {
    let used = used(words);
    let first = if gentle { 8 } else { 0 };
    match first + dice.below(20 - first) {
        0 => words[dice.below(used)] ^= 1 << dice.below(16),
        1 => words.swap(dice.below(used), dice.below(used)),
        2 => words[dice.below(used)] = *dice.one_of(&EDGES),
        3 => nudge(dice, words, 0..used),
        4 => nudge(dice, words, COUNTS),
        5 => nudge(dice, words, ROOTS),
        6 => exchange_rows(dice, words),
        7 => change_blocks(dice, words),
        8 => words.swap(ROOTS.start, ROOTS.start + 1),
        9..=11 => set_fuel(dice, words),
        12 | 13 => exchange_column(dice, words),
        14..=16 => set_kind(dice, words),
        _ => set_plain(dice, words),
    }
}

fn set_fuel(dice: &mut Dice, words: &mut [u16]) {
    let fuel = FUELS.start + dice.below(FUELS.len());
    let most = *dice.one_of(&[8, 64, 512, 4098]);
    words[fuel] = dice.below(most) as u16;
}

/// How many words the counts ask for, as far as they are there.
fn used(words: &[u16]) -> usize {
    let pool = usize::from(words[POOL]).div_ceil(2);
    (rows_end(words) + pool).min(words.len())
}

fn rows_end(words: &[u16]) -> usize {
    table(words, FOREST).end
}

/// The words of a table, by the counts.
fn table(words: &[u16], number: usize) -> Range<usize> {
    let bytes = |to: usize| {
        let counts = words.iter().zip(WIDTHS).take(to);
        counts
            .map(|(&count, width)| usize::from(count) * width)
            .sum::<usize>()
    };
    HEADER + bytes(number)..HEADER + bytes(number + 1)
}

/// Where a row of a table begins, if there is one within the words.
fn some_row(dice: &mut Dice, words: &[u16], number: usize) -> Option<usize> {
    let Range { start, end } = table(words, number);
    let rows = end.min(words.len()).saturating_sub(start) / WIDTHS[number];
    (rows > 0).then(|| start + WIDTHS[number] * dice.below(rows))
}

/// One more or one less.
fn nudge(dice: &mut Dice, words: &mut [u16], among: Range<usize>) {
    let at = among.start + dice.below(among.len());
    words[at] = if dice.once_in(2) {
        words[at].wrapping_add(1)
    } else {
        words[at].wrapping_sub(1)
    };
}

/// Two rows of one table.
fn two_rows(dice: &mut Dice, words: &[u16]) -> Option<(usize, usize, usize)> {
    let number = dice.below(WIDTHS.len());
    let one = some_row(dice, words, number)?;
    let other = some_row(dice, words, number)?;
    Some((WIDTHS[number], one, other))
}

fn exchange_rows(dice: &mut Dice, words: &mut [u16]) {
    if let Some((width, one, other)) = two_rows(dice, words) {
        for column in 0..width {
            words.swap(one + column, other + column);
        }
    }
}

/// Exchanges one word of two rows: both keep the number of users, and often their place.
fn exchange_column(dice: &mut Dice, words: &mut [u16]) {
    if let Some((width, one, other)) = two_rows(dice, words) {
        let column = dice.below(width);
        words.swap(one + column, other + column);
    }
}

/// Tries rows until one can be changed.
fn some_change(dice: &mut Dice, mut change: impl FnMut(&mut Dice) -> Option<()>) {
    for _ in 0..16 {
        if change(dice).is_some() {
            return;
        }
    }
}

fn set_kind(dice: &mut Dice, words: &mut [u16]) {
    some_change(dice, |dice| {
        let &(number, kinds) = dice.one_of(&LIKE);
        let row = some_row(dice, words, number)?;
        kinds.contains(&words[row]).then_some(())?;
        words[row] = *dice.one_of(kinds);
        Some(())
    });
}

fn set_plain(dice: &mut Dice, words: &mut [u16]) {
    some_change(dice, |dice| {
        let &(number, kind, column) = dice.one_of(&PLAIN);
        let row = some_row(dice, words, number)?;
        (words[row] == kind).then_some(())?;
        words[row + column] = dice.below(5) as u16;
        Some(())
    });
}

/// Cuts or doubles a block; the pool's count goes with it in half of the cases, so that the length is right.
fn change_blocks(dice: &mut Dice, words: &mut Vec<u16>) {
    let first = PAYLOAD * dice.below(words.len() / PAYLOAD);
    let range = first..first + PAYLOAD;
    let follows = dice.once_in(2);
    let pool = words[POOL];
    if dice.once_in(2) && words.len() > PAYLOAD {
        words.drain(range);
        if follows {
            words[POOL] = pool.saturating_sub(2 * PAYLOAD as u16);
        }
    } else {
        let again = words[range.clone()].to_vec();
        words.splice(range.end..range.end, again);
        if follows {
            words[POOL] = pool.saturating_add(2 * PAYLOAD as u16);
        }
    }
}
