//! From words to lines: a group that fits on its line stays there, one that does not breaks at its gaps.

const WIDTH: usize = 96;
const INDENT: usize = 2;
/// Deeper parts are not moved further to the right.
const DEEPEST: usize = 48;

enum Piece {
    Word(String),
    /// A place where the line may break, and what stands there if it does not.
    Gap(&'static str),
    Open,
    Close,
    In,
    Out,
}

#[derive(Default)]
pub struct Layout {
    pieces: Vec<Piece>,
}

impl Layout {
    pub fn word(&mut self, word: impl Into<String>) {
        self.pieces.push(Piece::Word(word.into()));
    }

    /// Outside of all groups a gap always breaks the line.
    pub fn gap(&mut self, flat: &'static str) {
        self.pieces.push(Piece::Gap(flat));
    }

    /// Begins a group, whose gaps break all or none.
    pub fn open(&mut self) {
        self.pieces.push(Piece::Open);
    }

    pub fn close(&mut self) {
        self.pieces.push(Piece::Close);
    }

    /// The lines that begin from here to `outdent` stand further to the right.
    pub fn indent(&mut self) {
        self.pieces.push(Piece::In);
    }

    pub fn outdent(&mut self) {
        self.pieces.push(Piece::Out);
    }

    pub fn finish(self) -> String {
        let mut widths = self.group_widths().into_iter();
        let mut text = String::new();
        let mut line_start = 0;
        let mut level = 0;
        let mut broken = vec![true];
        for piece in &self.pieces {
            match piece {
                Piece::Word(word) => text.push_str(word),
                Piece::Gap(flat) if !broken[broken.len() - 1] => text.push_str(flat),
                Piece::Gap(_) => {
                    text.push('\n');
                    line_start = text.len();
                    text.push_str(&" ".repeat((level * INDENT).min(DEEPEST)));
                }
                Piece::Open => {
                    let width = widths.next().expect("a width for each group");
                    broken.push(text.len() - line_start + width > WIDTH);
                }
                Piece::Close => {
                    broken.pop();
                }
                Piece::In => level += 1,
                Piece::Out => level -= 1,
            }
        }
        without_trailing_blanks(&text)
    }

    /// For each group, in the order of their beginnings, its width on one line.
    fn group_widths(&self) -> Vec<usize> {
        let mut widths = Vec::new();
        let mut open = Vec::new();
        let mut total = 0;
        for piece in &self.pieces {
            match piece {
                Piece::Word(word) => total += word.len(),
                Piece::Gap(flat) => total += flat.len(),
                Piece::Open => {
                    open.push(widths.len());
                    widths.push(total);
                }
                Piece::Close => {
                    let group = open.pop().expect("an open group");
                    widths[group] = total - widths[group];
                }
                Piece::In | Piece::Out => {}
            }
        }
        widths
    }
}

fn without_trailing_blanks(text: &str) -> String {
    text.lines()
        .map(|line| format!("{}\n", line.trim_end()))
        .collect()
}
