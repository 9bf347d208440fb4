//! How often resolve gave each of its three answers, and what target and link_generation answered.
use crate::record::{Lookup, Missing};

#[derive(Default)]
pub struct Lookups {
    /// An Active provider, an owner that is not Active, no owner.
    resolve: [u64; 3],
    /// Bindings; without them a dependency with an owner that is not Active, one without an owner, or nothing.
    target: [u64; 4],
    /// A number up to 1, a larger one; without one a dead link of the consumer and port, or none.
    link_generation: [u64; 4],
}

impl Lookups {
    pub fn resolve(&mut self, answer: Lookup) {
        self.resolve[place(answer)] += 1;
    }

    pub fn target(&mut self, there: bool, missing: Option<Missing>) {
        let place = match missing {
            Some(m) => place(m.found),
            None if there => 0,
            None => 3,
        };
        self.target[place] += 1;
    }

    /// An answer, and whether a dead link of the consumer and port stands.
    pub fn link_generation(&mut self, answer: Option<u64>, dead: bool) {
        let place = match answer {
            Some(number) => usize::from(number > 1),
            None => 3 - usize::from(dead),
        };
        self.link_generation[place] += 1;
    }

    pub fn print(&self) {
        let ([provider, not_active, no_owner], target) = (self.resolve, self.target);
        println!("resolve answered: a provider {provider}, an owner not Active {not_active}, no owner {no_owner}");
        println!(
            "target answered: bindings {}, a dependency with an owner not Active {}, without an owner {}, nothing {}",
            target[0], target[1], target[2], target[3]
        );
        let [first, later, dead, nothing] = self.link_generation;
        println!("link_generation answered: a number {}, {later} of them of a second or later episode,", first + later);
        println!("  none with a dead link of the consumer and port {dead}, none otherwise {nothing}");
    }
}

fn place(answer: Lookup) -> usize {
    match answer {
        Lookup::Provider(_) | Lookup::Disputed => 0,
        Lookup::NotActive(_) => 1,
        Lookup::NoOwner => 2,
    }
}
