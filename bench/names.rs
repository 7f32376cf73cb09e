// Names of a registry, made up from a fixed seed: syllables of three languages, marks, capitals, some names of two words.

const FIRST: [&[&str]; 3] = [
    &["ka", "sza", "be", "cho", "ri", "te", "no", "la", "mi", "zu", "cha", "do", "pe", "vi", "ha", "je"],
    &["ber", "ton", "schi", "lau", "wes", "gra", "hel", "min", "fro", "dau", "cher", "bri", "ste", "ul", "or", "ach"],
    &["la", "de", "mar", "pie", "chi", "ron", "bel", "san", "tou", "vau", "gi", "fa", "lou", "che", "pre", "an"],
];
const LAST: [&[&str]; 3] = [
    &["ki", "vic", "nek", "cha", "va", "rec", "slav", "ch"],
    &["mann", "ch", "er", "berg", "wald", "sen", "bach", "ig"],
    &["ot", "eau", "ier", "che", "ard", "elle", "ois", "in"],
];

// Numbers that look random, the same from the same seed.
pub struct Random(pub u64);

impl Random {
    pub fn below(&mut self, n: usize) -> usize {
        self.0 = self.0.wrapping_mul(6364136223846793005).wrapping_add(1442695040888963407);
        ((self.0 >> 33) as usize) % n
    }
}

fn word(random: &mut Random, out: &mut String) {
    let language = random.below(3);
    let begins = out.len();
    for _ in 0..1 + random.below(3) {
        out.push_str(FIRST[language][random.below(16)]);
        if random.below(12) == 0 {
            out.push('\'');
        }
    }
    out.push_str(LAST[language][random.below(8)]);
    if random.below(20) != 0 {
        let capital = out[begins..=begins].to_ascii_uppercase();
        out.replace_range(begins..=begins, &capital);
    }
}

pub fn names(seed: u64) -> impl Iterator<Item = String> {
    let mut random = Random(seed);
    std::iter::repeat_with(move || {
        let mut name = String::new();
        word(&mut random, &mut name);
        if random.below(4) == 0 {
            name.push(' ');
            word(&mut random, &mut name);
        }
        name
    })
}
