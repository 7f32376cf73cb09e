// Lists of names' numbers, put in order by stored keys, and cut.
use std::cmp::Ordering;

// Keys one behind the other, and where each begins, with the end behind.
pub struct Keys<T> {
    pub all: Vec<T>,
    bounds: Vec<usize>,
}

impl<T: Ord> Keys<T> {
    // No keys, and room for so many, of so many numbers together.
    pub fn with_capacity(keys: usize, numbers: usize) -> Keys<T> {
        let mut bounds = Vec::with_capacity(keys + 1);
        bounds.push(0);
        Keys { all: Vec::with_capacity(numbers), bounds }
    }

    // What was put behind the others is the next key.
    pub fn end_key(&mut self) {
        self.bounds.push(self.all.len());
    }

    pub fn key(&self, number: u32) -> &[T] {
        &self.all[self.bounds[number as usize]..self.bounds[number as usize + 1]]
    }

    // The keys' numbers in the order of the keys; of the same keys the first is first.
    pub fn in_order(&self) -> Vec<u32> {
        let numbers = 0..self.bounds.len() as u32 - 1;
        let mut keyed: Vec<(&[T], u32)> = numbers.map(|number| (self.key(number), number)).collect();
        keyed.sort_unstable();
        keyed.into_iter().map(|(_, number)| number).collect()
    }
}

// The part of a list that stands equal, where what is before it is less and what is behind it greater. The list is halved
// until one that stands equal is met, and then cut on both sides of it.
pub fn part(places: &[u32], standing: impl Fn(u32) -> Ordering) -> &[u32] {
    let mut rest = places;
    while !rest.is_empty() {
        let middle = rest.len() / 2;
        match standing(rest[middle]) {
            Ordering::Less => rest = &rest[middle + 1..],
            Ordering::Greater => rest = &rest[..middle],
            Ordering::Equal => {
                let low = rest[..middle].partition_point(|number| standing(*number).is_lt());
                let high = middle + 1 + rest[middle + 1..].partition_point(|number| standing(*number).is_eq());
                return &rest[low..high];
            }
        }
    }
    rest
}
