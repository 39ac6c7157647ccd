//! Water in the last runs: the permit of the documents, the limits of 39, and random lists against sums that are taken afresh.

use liuwdom::records::{RUNS, WINDOW};
use liuwdom::{window, Refusal};

const WEEK: [u32; 7] = [40, 20, 30, 45, 30, 0, 50];

#[test]
fn a_pump_permit() {
    assert_eq!(window(&WEEK, 3, 90), Ok(Some(3)));
    assert_eq!(window(&WEEK, 3, 104), Ok(Some(4)));
    assert_eq!(window(&WEEK, 3, 105), Ok(None));
    assert_eq!(window(&WEEK, 3, 59), Ok(Some(1)));
    assert_eq!(window(&WEEK, WINDOW, 214), Ok(Some(6)));
    assert_eq!(window(&WEEK, WINDOW, 215), Ok(None));
    assert_eq!(window(&[], 1, 0), Ok(None));
}

#[test]
fn windows_1440_and_1441() {
    let out = Err(Refusal::WindowOutOfRange);
    for w in [0, WINDOW + 1, u64::from(u32::MAX) + 2, u64::MAX] {
        assert_eq!(window(&WEEK, w, 0), out);
        assert_eq!(window(&[], w, 0), out);
    }
    for w in [1, WINDOW] {
        assert_eq!(window(&WEEK, w, 0), Ok(Some(0)));
    }
}

#[test]
fn runs_4096_and_4097() {
    let runs = vec![u32::MAX; RUNS + 1];
    let most = WINDOW * u64::from(u32::MAX);
    assert_eq!(window(&runs[1..], WINDOW, most), Ok(None));
    let last = WINDOW as usize - 1;
    assert_eq!(window(&runs[1..], WINDOW, most - 1), Ok(Some(last)));
    assert_eq!(window(&runs, 1, 0), Err(Refusal::WindowOutOfRange));
}

fn afresh(minutes: &[u32], w: usize, limit: u64) -> Option<usize> {
    let sum = |last: usize| -> u64 {
        let first = (last + 1).saturating_sub(w);
        minutes[first..=last].iter().copied().map(u64::from).sum()
    };
    (0..minutes.len()).find(|&last| limit < sum(last))
}

// A generator of the usual kind, the same numbers each time.
struct Random(u64);

impl Random {
    fn below(&mut self, end: u64) -> u64 {
        self.0 = self.0.wrapping_mul(6364136223846793005);
        self.0 = self.0.wrapping_add(1442695040888963407);
        (self.0 >> 33) % end
    }
}

#[test]
fn random_lists_as_by_sums_taken_afresh() {
    let mut random = Random(10);
    let mut positions = 0;
    for _ in 0..20_000 {
        let most = [2, 60, 1 << 31][random.below(3) as usize];
        let runs: Vec<u32> = (0..random.below(60))
            .map(|_| random.below(most) as u32)
            .collect();
        let w = 1 + random.below(40);
        let limit = random.below(most) * w;
        let expected = afresh(&runs, w as usize, limit);
        positions += usize::from(expected.is_some());
        assert_eq!(window(&runs, w, limit), Ok(expected));
    }
    assert!((5_000..15_000).contains(&positions), "{positions}");
}
