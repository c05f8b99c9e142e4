//! Document 01, "Bundles: blocks of 512 bytes": tables as bytes and back, unjudged.

use crate::tables::Sheet;

/// "blocks of 512 bytes": "256 little-endian words".
pub const BLOCK_BYTES: usize = 512;
/// "Words 1 to 254: payload."
const PAYLOAD: std::ops::Range<usize> = 1..255;
/// "Word 255: sum of words 0 to 254 modulo 65,535."
const CHECK: usize = 255;
/// "thirteen words".
const HEADER: usize = 13;
/// "at most 88".
const BLOCKS: usize = 88;

/// The bundle of a sheet, whatever the sheet holds.
pub fn to_bundle(sheet: &Sheet) -> Vec<u8> {
    let payload = payload_of(sheet);
    let blocks = payload.chunks(PAYLOAD.len());
    blocks
        .zip(1..)
        .flat_map(|(words, number)| block(words, number))
        .collect()
}

/// The sheet's tables without blocks: thirteen words, the tables in their order, the pool's bytes.
pub fn encode(sheet: &Sheet) -> Vec<u8> {
    let words = payload_of(sheet);
    let mut bytes: Vec<u8> = words.iter().flat_map(|word| word.to_le_bytes()).collect();
    bytes.truncate(bytes.len() - sheet.pool.len() % 2);
    bytes
}

/// The sheet that these bytes begin with; none if there are fewer bytes than their counts say.
pub fn decode(bytes: &[u8]) -> Option<Sheet> {
    let header = bytes.get(..2 * HEADER)?.chunks(2);
    let header: Vec<usize> = header.map(|it| usize::from(word(it[0], it[1]))).collect();
    let counts: [usize; 7] = std::array::from_fn(|count| header[count]);
    let odd = counts[6] % 2;
    let used = bytes.get(..2 * words_needed(counts) - odd)?;
    let words = used
        .chunks(2)
        .map(|it| word(it[0], it.get(1).copied().unwrap_or(0)));
    tables(&words.collect::<Vec<u16>>(), counts)
}

/// The tables of a bundle, unjudged; none is Block.
pub fn unframe(bundle: &[u8]) -> Option<Sheet> {
    let payload = payload_in(bundle)?;
    let counts: [usize; 7] = std::array::from_fn(|count| usize::from(payload[count]));
    let words = words_needed(counts);
    let blocks = words.div_ceil(PAYLOAD.len());
    if blocks > BLOCKS || blocks != bundle.len() / BLOCK_BYTES {
        return None;
    }
    let (used, padding) = payload.split_at(words);
    let sheet = tables(used, counts)?;
    padding.iter().all(|&word| word == 0).then_some(sheet)
}

/// The payload of all blocks, if length, numbering and check are right.
fn payload_in(bundle: &[u8]) -> Option<Vec<u16>> {
    if bundle.is_empty() || !bundle.len().is_multiple_of(BLOCK_BYTES) {
        return None;
    }
    let mut payload = Vec::new();
    for (block, number) in bundle.chunks(BLOCK_BYTES).zip(1usize..) {
        let words: Vec<u16> = block.chunks(2).map(|it| word(it[0], it[1])).collect();
        if usize::from(words[0]) != number || words[CHECK] != check_word(&words[..CHECK]) {
            return None;
        }
        payload.extend_from_slice(&words[PAYLOAD]);
    }
    Some(payload)
}

/// The sheet in these words; none if an odd pool's last high byte, which is padding, is not 0.
fn tables(words: &[u16], counts: [usize; 7]) -> Option<Sheet> {
    let [names, types, queries, statements, procedures, forest, pool] = counts;
    let mut left = &words[HEADER..];
    let mut sheet = Sheet {
        names: take::<1>(&mut left, names).concat(),
        types: take(&mut left, types),
        queries: take(&mut left, queries),
        statements: take(&mut left, statements),
        procedures: take(&mut left, procedures),
        forest: take(&mut left, forest),
        pool: left.iter().flat_map(|word| word.to_le_bytes()).collect(),
        a: words[7],
        b: words[8],
        main: words[9],
        root: words[10],
        check_fuel: words[11],
        run_fuel: words[12],
    };
    let padding = sheet.pool.split_off(pool);
    padding.iter().all(|&byte| byte == 0).then_some(sheet)
}

/// Takes so many rows off the words.
fn take<const ROW: usize>(words: &mut &[u16], count: usize) -> Vec<[u16; ROW]> {
    let (rows, left) = words.split_at(count * ROW);
    *words = left;
    let rows = rows.chunks(ROW);
    rows.map(|row| row.try_into().expect("a whole row"))
        .collect()
}

/// "counts of names, types, queries, statements, procedures, forest rows, pool bytes".
pub fn counts(sheet: &Sheet) -> [usize; 7] {
    [
        sheet.names.len(),
        sheet.types.len(),
        sheet.queries.len(),
        sheet.statements.len(),
        sheet.procedures.len(),
        sheet.forest.len(),
        sheet.pool.len(),
    ]
}

/// How many payload words these counts need.
fn words_needed(counts: [usize; 7]) -> usize {
    let [names, types, queries, statements, procedures, forest, pool] = counts;
    let rows = names + 3 * types + 4 * queries + 4 * statements + 5 * procedures + 4 * forest;
    HEADER + rows + pool.div_ceil(2)
}

/// "Payload in order: thirteen words …, then the tables in the order of those counts, then the
/// pool, low byte first."
fn payload_of(sheet: &Sheet) -> Vec<u16> {
    // A count that is no word is far past every limit, and so is 65,535.
    let mut words: Vec<u16> = counts(sheet)
        .into_iter()
        .map(|count| u16::try_from(count).unwrap_or(u16::MAX))
        .collect();
    words.extend([sheet.a, sheet.b, sheet.main, sheet.root]);
    words.extend([sheet.check_fuel, sheet.run_fuel]);
    words.extend(&sheet.names);
    words.extend(sheet.types.as_flattened());
    words.extend(sheet.queries.as_flattened());
    words.extend(sheet.statements.as_flattened());
    words.extend(sheet.procedures.as_flattened());
    words.extend(sheet.forest.as_flattened());
    let pool = sheet.pool.chunks(2);
    words.extend(pool.map(|it| word(it[0], it.get(1).copied().unwrap_or(0))));
    words
}

/// "Word 0: block number from 1. Words 1 to 254: payload. Word 255: sum …"; "Padding is 0."
pub fn block(payload: &[u16], number: u16) -> Vec<u8> {
    let mut words = vec![number];
    words.extend(payload);
    words.resize(CHECK, 0);
    words.push(check_word(&words));
    words.iter().flat_map(|word| word.to_le_bytes()).collect()
}

/// "sum of words 0 to 254 modulo 65,535".
fn check_word(words: &[u16]) -> u16 {
    let sum: u32 = words.iter().map(|&word| u32::from(word)).sum();
    u16::try_from(sum % 65_535).expect("a remainder below 65,535")
}

fn word(low: u8, high: u8) -> u16 {
    u16::from_le_bytes([low, high])
}
