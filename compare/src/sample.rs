// A fixed list of the oracle's answers, as a section of what the program collect_cases reads. Cases are drawn like the random ones; small ones
// are taken, and every way to end in the Rust has its share.
use crate::case::Case;
use crate::port::Port;
use crate::random::Generator;
use crate::replay::name_in;
use crate::theirs::Theirs;
use std::fmt::Write;

const MOST_CELLS: usize = 90;
const MOST_BYTES: usize = 160;
const ENDINGS: u64 = 12;

fn counted<T: ToString>(xs: &[T], out: &mut String) {
    let words: Vec<String> = xs.iter().map(|x| x.to_string()).collect();
    let line = format!("{} {}", xs.len(), words.join(" "));
    writeln!(out, "{}", line.trim_end()).unwrap();
}

// The lines of one case.
fn lines(case: &Case, theirs: &mut Theirs, out: &mut String) {
    let mut board: Vec<u64> = (0..case.board_len as u64).map(|i| case.fill + i).collect();
    let answer = theirs.collect(case.spec(), case.call(), &mut board);
    let fills = theirs.can_fill(case.spec(), case.call());
    let kept = |i: &usize| board[*i] == case.fill + *i as u64;
    let written = (0..board.len())
        .rev()
        .find(|i| !kept(i))
        .map_or(0, |i| i + 1);
    counted(&case.spec_cells, out);
    counted(&case.spec_area, out);
    counted(&case.call_area, out);
    writeln!(out, "{} {}", case.board_len, case.fill).unwrap();
    counted(&case.call_cells, out);
    writeln!(out, "{} {}\n0", fills[0], fills[4]).unwrap();
    let payload = answer[2] << 8 | answer[3];
    let told = match answer[0] {
        0 => [answer[4], answer[5], answer[6], answer[7]],
        _ => [answer[4], answer[1], payload, 0],
    };
    writeln!(
        out,
        "{} {} {} {} {}",
        answer[0], told[0], told[1], told[2], told[3]
    )
    .unwrap();
    counted(name_in(case, &answer), out);
    counted(&board[..written], out);
}

// How many cases ended in each number, and how many there are to be.
struct Shares {
    ended: [u64; 32],
    taken: u64,
    count: u64,
    share: u64,
}

impl Shares {
    // Is a case that ends so taken? As long as others lack their share, room is kept for them.
    fn take(&mut self, number: usize) -> bool {
        let lacking = (0..32).filter(|n| is_ending(*n));
        let kept: u64 = lacking
            .map(|n| self.share.saturating_sub(self.ended[n]))
            .sum();
        let lacks = self.ended[number] < self.share;
        if !is_ending(number) || !lacks && self.count - self.taken <= kept {
            return false;
        }
        self.ended[number] += 1;
        self.taken += 1;
        true
    }
}

pub fn sample(seed: u64, count: u64) -> String {
    let mut generator = Generator::new(seed);
    let mut theirs = Theirs::default();
    let mut case = Case::default();
    let mut shares = Shares {
        ended: [0; 32],
        taken: 0,
        count,
        share: count / ENDINGS / 2,
    };
    let mut out = format!("# oracle\n{count}\n");
    while shares.taken < count {
        generator.next(&mut case);
        case.fill %= 1 << 40;
        let (cells, bytes) = case.size();
        if MOST_CELLS < cells || MOST_BYTES < bytes {
            continue;
        }
        theirs.forms = case.forms;
        let mut board = vec![0; case.board_len];
        let ended = theirs.published(case.spec(), case.call(), &mut board);
        if shares.take(ended[0] as usize) {
            writeln!(out, "# {}", shares.taken).unwrap();
            lines(&case, &mut theirs, &mut out);
        }
    }
    out
}

fn is_ending(number: usize) -> bool {
    matches!(number, 0 | 13 | 15..=24)
}
