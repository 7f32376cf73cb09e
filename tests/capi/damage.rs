// Damage to tables, starts and lists.
use crate::inputs::{Input, Random};

// 5 times this is 1 modulo 2 ^ 64: where five numbers for each pair are reckoned in 64 bits, so many pairs, times the
// numbers that there are, seem to have just these.
const FIFTH: u64 = 0xcccc_cccc_cccc_cccd;

// Damage to a table. It may leave a table that is one.
pub fn table(random: &mut Random, input: &mut Input) {
    match random.below(8) {
        // Not 768 weights.
        0 => {
            let length = random.of(&[0, 1, 3, 256, 765, 767, 769, 771, 1536]);
            input.letters.resize(length, 1);
        }
        // Not five numbers for each pair.
        1 => {
            let length = input.pairs.len();
            let length =
                if random.one_in(2) { length + 1 + random.below(9) } else { length - length.min(1 + random.below(5)) };
            input.pairs.resize(length, 7);
            if random.one_in(2) {
                input.how_many = (length as u64).wrapping_mul(FIFTH);
            }
        }
        // Another number of pairs.
        2 => {
            let n = input.how_many;
            input.how_many =
                random.of(&[n.wrapping_add(1), n.wrapping_sub(1), n ^ 1 << 32, n ^ 1 << 63, 1 << 61, u64::MAX, 200, 0]);
        }
        // More than 200 pairs.
        3 => {
            let wanted = random.of(&[200, 201, 202, 256, 300, 1000]);
            for place in input.how_many..wanted {
                input.pairs.extend([place as u16 % 256, 255 - place as u16 / 256, 1, 2, 3]);
            }
            input.how_many = input.how_many.max(wanted);
        }
        // A pair is there twice.
        4 | 5 => {
            for _ in 0..1 + random.below(2) {
                let count = input.pairs.len() / 5;
                if count > 1 && random.one_in(2) {
                    let (from, to) = (random.below(count), random.below(count));
                    input.pairs.copy_within(5 * from..5 * from + 2, 5 * to);
                } else if count > 0 && count < 200 {
                    let from = random.below(count);
                    input.pairs.extend_from_within(5 * from..5 * from + 2);
                    input.pairs.extend([9, 9, 9]);
                    input.how_many = input.how_many.wrapping_add(1);
                }
            }
        }
        // A letter above 255.
        _ => {
            if input.pairs.len() < 5 {
                input.pairs = vec![97, 98, 1, 2, 3];
                input.how_many = 1;
            }
            for _ in 0..1 + random.below(2) {
                let at = 5 * random.below(input.pairs.len() / 5) + random.below(2);
                let low = input.pairs[at] % 256;
                input.pairs[at] = random.of(&[255, 256, 256 + low, 512 + low, 65535]);
            }
        }
    }
}

// Damage to a text and the starts of names or questions in it. It may leave them as they should be.
pub fn starts(random: &mut Random, text: &mut Vec<u8>, starts: &mut Vec<u32>) {
    let count = starts.len();
    match random.below(7) {
        // No start, or fewer.
        0 => starts.truncate(if random.one_in(2) { 0 } else { random.below(count + 1) }),
        // One or two starts are others.
        1 | 2 => {
            for _ in 0..1 + random.below(2) {
                if count > 0 {
                    let at = random.below(count);
                    let old = starts[at];
                    let any = random.next() as u32;
                    starts[at] =
                        random.of(&[old.wrapping_sub(1), old.wrapping_add(1), 0, u32::MAX, any, text.len() as u32]);
                }
            }
        }
        // A name of some thousand letters, at the limit or past it; the text has them or not.
        3 | 4 => {
            if count > 1 {
                let number = 1 + random.below(count - 1);
                let letters = starts[number].wrapping_sub(starts[number - 1]);
                let more = random.of(&[1000, 1001, 1002, 2000, 70000]).max(letters.min(70000)) - letters.min(70000);
                for start in &mut starts[number..] {
                    *start = start.wrapping_add(more);
                }
                if random.below(4) > 0 {
                    let length = text.len() + more as usize;
                    text.resize(length, 97);
                }
            }
        }
        // The text ends elsewhere.
        5 => {
            let length = text.len();
            text.resize(random.of(&[0, length.saturating_sub(1), length + 1, length + 1001]), 97);
        }
        _ => {
            if let Some(last) = starts.last_mut() {
                *last = random.of(&[
                    last.wrapping_sub(1),
                    last.wrapping_add(1),
                    last.wrapping_add(256),
                    last.wrapping_add(65536),
                    u32::MAX,
                ]);
            }
        }
    }
}

// Damage to a list. It may leave one that is in order.
fn places(random: &mut Random, input: &mut Input) {
    let names = input.starts.len().saturating_sub(1) as u32;
    let count = input.places.len();
    if count == 0 {
        input.places.push(random.of(&[names, 0, u32::MAX]));
        return;
    }
    match random.below(4) {
        // Numbers of no names.
        0 => {
            for _ in 0..1 + random.below(2) {
                let any = random.next() as u32;
                input.places[random.below(count)] = random.of(&[names, names + 1, names + 65536, u32::MAX, any]);
            }
        }
        // Names out of order: two neighbours, any two, or all.
        1 => {
            let at = random.below(count);
            input.places.swap(at, (at + 1) % count);
        }
        2 => {
            let (at, with) = (random.below(count), random.below(count));
            input.places.swap(at, with);
        }
        _ => input.places.reverse(),
    }
}

// Nothing, or one to three damages to table and lists.
pub fn any(random: &mut Random, input: &mut Input) {
    for _ in 0..random.of(&[0, 0, 1, 1, 1, 2, 3]) {
        match random.below(5) {
            0 => table(random, input),
            1 | 2 => starts(random, &mut input.text, &mut input.starts),
            _ => places(random, input),
        }
    }
}
