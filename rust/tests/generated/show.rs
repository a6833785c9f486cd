//! Shows records in a form to read: only numbers that are not 0, or only those that differ.

use facetgrove_model::{Cpu, Machine, Plant, REGISTER_NAMES};

/// A record whose every number has a name.
pub trait Named {
    fn named(&self) -> Vec<(String, u64)>;
}

/// The numbers that are not 0.
pub fn shown(record: &impl Named) -> String {
    let numbers = record.named().into_iter().filter(|&(_, number)| number != 0);
    numbers.map(|(name, number)| format!("{name} {number}")).collect::<Vec<_>>().join(", ")
}

/// The numbers in which two records of one form differ.
pub fn differing(one: &str, left: &impl Named, other: &str, right: &impl Named) -> String {
    let pairs = left.named().into_iter().zip(right.named()).filter(|(left, right)| left != right);
    let lines = pairs.map(|((name, left), (_, right))| format!("{name}: {one} {left}, {other} {right}"));
    lines.take(20).collect::<Vec<_>>().join("\n")
}

fn list<T: Copy + Into<u64>>(name: &str, items: &[T]) -> Vec<(String, u64)> {
    let each = items.iter().enumerate().map(|(index, &item)| (format!("{name}[{index}]"), item.into()));
    std::iter::once((format!("{name} length"), items.len() as u64)).chain(each).collect()
}

impl Named for Vec<u8> {
    fn named(&self) -> Vec<(String, u64)> {
        list("bytes", self)
    }
}

impl Named for Vec<u16> {
    fn named(&self) -> Vec<(String, u64)> {
        list("memory", self)
    }
}

impl Named for Vec<u32> {
    fn named(&self) -> Vec<(String, u64)> {
        list("store", self)
    }
}

impl Named for Plant {
    fn named(&self) -> Vec<(String, u64)> {
        let single = [("place".to_string(), self.place as u64), ("count".to_string(), self.count as u64)];
        [self.memory.named(), list("input", &self.input), list("log", &self.log), single.to_vec()].concat()
    }
}

impl Named for Machine {
    fn named(&self) -> Vec<(String, u64)> {
        let registers = REGISTER_NAMES.iter().zip(self.registers);
        let registers = registers.map(|(name, value)| (name.to_string(), value.into())).collect();
        let single = [("line".to_string(), self.line as u64), ("half".to_string(), self.half as u64)];
        [registers, single.to_vec(), self.plant.named(), self.store.named()].concat()
    }
}

impl Named for Cpu {
    fn named(&self) -> Vec<(String, u64)> {
        let registers = [("cp", self.cp), ("pp", self.pp), ("ac", self.ac)];
        let registers = registers.map(|(name, value)| (name.to_string(), value.into()));
        [registers.to_vec(), self.plant.named()].concat()
    }
}
