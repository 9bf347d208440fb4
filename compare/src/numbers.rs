//! The numbers that links must have, which lib.rs does not store: each is the provider's generation at the consumer's
//! begin. They stand beside lib.rs's links and follow the calls alone: a begin appends, compact_bindings keeps those of
//! the live links, and nothing else changes one.
use super::{Binding, Kernel, Port};
use crate::calls::Call;
use crate::record::Record;

/// A number for each of lib.rs's links, in order, dead ones too.
#[derive(Default, Clone)]
pub struct Numbers(Vec<u64>);

/// The generations of the providers that target gives, in its order; none without a target.
pub fn of_target(kernel: &Kernel, id: usize) -> Option<Vec<u64>> {
    let target = kernel.target(id)?;
    target.iter().map(|b| kernel.episode_generation(b.provider)).collect()
}

impl Numbers {
    /// Those of tables written by hand.
    pub fn of(tables: &Record) -> Numbers {
        Numbers(tables.numbers().collect())
    }

    /// After an accepted call, made on the kernel given.
    pub fn follow(&mut self, call: Call, before: &Kernel) {
        match call {
            Call::Begin(id) => self.0.extend(of_target(before, id).unwrap_or_default()),
            Call::CompactBindings => {
                let mut links = before.links.iter();
                self.0.retain(|_| links.next().is_some_and(|l| l.live));
            }
            _ => {}
        }
    }

    /// The number of the link at a place; 0 of one that no accepted begin made, which only a wrong kernel has.
    pub fn at(&self, place: usize) -> u64 {
        self.0.get(place).copied().unwrap_or(0)
    }

    /// What link_generation must answer: the number of the first live link of this consumer and port.
    pub fn link_generation(&self, kernel: &Kernel, consumer: usize, port: Port) -> Option<u64> {
        let of_port = |b: Binding| (b.key, b.realm) == (port.key, port.realm);
        let first = kernel.links.iter().position(|l| l.live && l.consumer == consumer && of_port(l.binding));
        first.map(|place| self.at(place))
    }
}
