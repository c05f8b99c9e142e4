//! What is wrong with bytes that the proved reader refuses with 1, Block: the first fault, in words.

const BLOCK: usize = 512;
const MOST_BLOCKS: usize = 88;
const PAYLOAD_WORDS: usize = 254;

pub fn fault(bytes: &[u8]) -> String {
    if bytes.starts_with(b"\xff\xfe") || bytes.starts_with(b"\xfe\xff") {
        return "this is a text in UTF-16: save it as UTF-8".into();
    }
    let blocks = bytes.len() / BLOCK;
    if !bytes.len().is_multiple_of(BLOCK) || blocks == 0 {
        let count = bytes.len();
        return format!(
            "{count} bytes are no whole blocks of 512, so it is no bundle; it has a byte 0, so it is no text"
        );
    }
    if blocks > MOST_BLOCKS {
        return format!("a bundle has at most {MOST_BLOCKS} blocks, and there are {blocks}");
    }
    let numbered = (1..).zip(bytes.chunks_exact(BLOCK));
    let broken = numbered.clone().find_map(|(number, block)| block_fault(number, &words(block)));
    broken.unwrap_or_else(|| {
        payload_fault(&numbered.flat_map(|(_, block)| words(block)[1..=PAYLOAD_WORDS].to_vec()).collect::<Vec<_>>())
    })
}

fn words(block: &[u8]) -> Vec<u16> {
    block.chunks_exact(2).map(|word| u16::from_le_bytes([word[0], word[1]])).collect()
}

fn block_fault(number: usize, words: &[u16]) -> Option<String> {
    if usize::from(words[0]) != number {
        return Some(format!("block {number} has the number {}", words[0]));
    }
    let sum: u64 = words[..255].iter().map(|word| u64::from(*word)).sum();
    let wanted = sum % 65_535;
    (u64::from(words[255]) != wanted)
        .then(|| format!("block {number} has the check word {}, and its words sum to {wanted}", words[255]))
}

/// Each block is right by itself: their count or the padding is not what the first words say.
fn payload_fault(words: &[u16]) -> String {
    let count = |at: usize| usize::from(words[at]);
    let rows = [(0, 1), (1, 3), (2, 4), (3, 4), (4, 5), (5, 4)].map(|(at, words)| count(at) * words);
    let need = 13 + rows.iter().sum::<usize>() + count(6).div_ceil(2);
    let (blocks, wanted) = (words.len() / PAYLOAD_WORDS, need.div_ceil(PAYLOAD_WORDS));
    if blocks != wanted {
        let plural = if wanted == 1 { "" } else { "s" };
        return format!("its tables need {wanted} block{plural}, and there are {blocks}");
    }
    "behind the tables all is to be 0, and it is not".into()
}
