//! How often each answer was reached.

#[derive(Clone, Debug, PartialEq, Eq)]
pub struct Counts {
    codes: &'static [u8],
    times: Vec<u64>,
}

impl Counts {
    pub fn of(codes: &'static [u8]) -> Counts {
        Counts {
            codes,
            times: vec![0; codes.len()],
        }
    }

    pub fn by_code(&self) -> impl Iterator<Item = (u8, u64)> + '_ {
        self.codes.iter().copied().zip(self.times.iter().copied())
    }

    pub fn total(&self) -> u64 {
        self.times.iter().sum()
    }

    pub fn each_at_least(&self, least: u64) -> bool {
        self.times.iter().all(|&times| times >= least)
    }

    pub fn add(&mut self, other: &Counts) {
        for (code, times) in other.by_code() {
            self.add_times(code, times);
        }
    }

    pub fn count(&mut self, code: u8) {
        self.add_times(code, 1);
    }

    fn add_times(&mut self, code: u8, times: u64) {
        let place = self.codes.iter().position(|&known| known == code);
        self.times[place.expect("this program gives these codes alone")] += times;
    }
}
