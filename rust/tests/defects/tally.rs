//! How often each number was met, so that a comparison that saw little is noticed.

const LAST_NUMBER: usize = 28;
const LEAST: usize = 50;

#[derive(Default)]
pub struct Tally([usize; LAST_NUMBER + 1]);

impl Tally {
    /// A refusal's number, or 0.
    pub fn note(&mut self, number: u8) {
        self.0[usize::from(number)] += 1;
    }

    /// These numbers were met often enough, and no others at all.
    pub fn assert_met(&self, what: &str, numbers: impl IntoIterator<Item = usize>) {
        let mut others = self.0;
        for number in numbers {
            let met = std::mem::take(&mut others[number]);
            println!("{what}, {number:2}: {met}");
            assert!(met >= LEAST, "{what}: {number} met {met} times");
        }
        assert_eq!(
            others,
            [0; LAST_NUMBER + 1],
            "{what}: numbers of other calls"
        );
    }
}
