// What is handed to each side: a table as numbers, and names in a text.
use crate::names::Random;

// Names, or questions, one behind the other, and where each begins, with the end of the text behind.
pub struct Texts {
    pub text: Vec<u8>,
    pub starts: Vec<u32>,
}

impl Texts {
    pub fn of<T: AsRef<[u8]>>(all: impl IntoIterator<Item = T>) -> Texts {
        let mut texts = Texts { text: Vec::new(), starts: vec![0] };
        for one in all {
            texts.text.extend_from_slice(one.as_ref());
            texts.starts.push(u32::try_from(texts.text.len()).expect("a text has less than 2^32 letters"));
        }
        texts
    }

    pub fn len(&self) -> usize {
        self.starts.len() - 1
    }

    pub fn at(&self, place: usize) -> &[u8] {
        &self.text[self.starts[place] as usize..self.starts[place + 1] as usize]
    }

    pub fn iter(&self) -> impl Iterator<Item = &[u8]> {
        (0..self.len()).map(|place| self.at(place))
    }
}

// Three weights for each letter, and five numbers for each pair: two letters and their three weights.
#[derive(Clone)]
pub struct Numbers {
    pub letters: Vec<u16>,
    pub pairs: Vec<u16>,
    // Whether names are read as UTF-8.
    pub utf8: bool,
}

impl Numbers {
    // The same letters and pairs, of names in UTF-8.
    pub fn in_utf8(&self) -> Numbers {
        Numbers { utf8: true, ..self.clone() }
    }

    pub fn how_many(&self) -> u64 {
        self.pairs.len() as u64 / 5
    }

    // The valley's table: c and h are one letter together.
    pub fn valley() -> Numbers {
        let mut letters = [0, 0, 1].repeat(256);
        for letter in 0..26 {
            let primary = 10 * (letter as u16 + 1);
            let (small, large) = (3 * (97 + letter), 3 * (65 + letter));
            letters[small..small + 3].copy_from_slice(&[primary, 1, 1]);
            letters[large..large + 3].copy_from_slice(&[primary, 1, 2]);
        }
        letters[3 * 39..3 * 40].copy_from_slice(&[0, 2, 1]);
        Numbers { letters, pairs: vec![99, 104, 35, 1, 1], utf8: false }
    }

    // The valley's letters, and 200 pairs: eight letters are one with each of the others.
    pub fn many_pairs() -> Numbers {
        let mut pairs = Vec::new();
        for first in *b"acehnrst" {
            for second in (b'a'..=b'z').filter(|second| *second != first) {
                let primary = 10 * (first - b'a' + 1) as u16 + second as u16 % 9 + 1;
                pairs.extend([first as u16, second as u16, primary, 1, 1]);
            }
        }
        Numbers { pairs, ..Numbers::valley() }
    }
}

// Questions: the first 2 to 6 letters of some names; in every tenth another letter stands last, so that some find nothing.
pub fn questions(names: &Texts, how_many: usize, random: &mut Random) -> Texts {
    Texts::of((0..how_many).map(|place| {
        let name = names.at(random.below(names.len()));
        let mut ask = name[..name.len().min(2 + random.below(5))].to_vec();
        if place % 10 == 0 {
            *ask.last_mut().expect("no name is empty") = b'a' + random.below(26) as u8;
        }
        ask
    }))
}
