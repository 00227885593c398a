//! The generator's steps by name, and whole transactions of them.

use crate::generate::Generator;
use crate::map::{Payload, Write};
use crate::step::{Answer, Step};

impl Generator {
    pub fn begin(&mut self, worker: u32) {
        self.play(Step::Begin { worker });
    }

    pub fn read(&mut self, worker: u32, address: u32) {
        self.play(Step::Read { worker, address });
    }

    pub fn scan(&mut self, worker: u32, lo: u32, hi: u32) {
        self.play(Step::Scan { worker, lo, hi });
    }

    pub fn put(&mut self, worker: u32, address: u32) {
        let put = self.put_at(address);
        self.write(worker, (address, put));
    }

    pub fn remove(&mut self, worker: u32, address: u32) {
        self.play(Step::Remove { worker, address });
    }

    pub fn write(&mut self, worker: u32, (address, write): (u32, Write)) {
        self.play(write_of(worker, address, write));
    }

    pub fn lock(&mut self, worker: u32) {
        self.play(Step::Lock { worker });
    }

    pub fn validate(&mut self, worker: u32) -> Answer {
        self.play(Step::Validate { worker })
    }

    pub fn install(&mut self, worker: u32) {
        self.play(Step::Install { worker });
    }

    pub fn abort(&mut self, worker: u32) {
        self.play(Step::Abort { worker });
    }

    pub fn merge(&mut self, address: u32) {
        self.play(Step::Merge { address });
    }

    pub fn merge_oldest(&mut self) -> Answer {
        self.play(Step::MergeOldest)
    }

    /// From lock to install, as far as it is granted.
    pub fn finish(&mut self, worker: u32) {
        self.lock(worker);
        if self.validate(worker).granted() {
            self.install(worker);
        }
    }

    pub fn commit(&mut self, worker: u32, writes: &[(u32, Write)]) {
        self.idle(worker);
        self.begin(worker);
        writes.iter().for_each(|&write| self.write(worker, write));
        self.finish(worker);
    }
}

pub fn write_of(worker: u32, address: u32, write: Write) -> Step {
    match write {
        Write::Put(Payload { value, owner }) => Step::Put { worker, address, value, owner },
        Write::Delete => Step::Remove { worker, address },
    }
}

/// A whole transaction around these steps.
pub fn transaction(worker: u32, body: impl IntoIterator<Item = Step>) -> Vec<Step> {
    let mut steps = vec![Step::Begin { worker }];
    steps.extend(body);
    steps.extend([Step::Lock { worker }, Step::Validate { worker }, Step::Install { worker }]);
    steps
}
