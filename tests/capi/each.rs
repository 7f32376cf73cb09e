// Many questions at once.
use crate::damage;
use crate::inputs::{self, Input, Random};
use crate::lent::Fenced;
use crate::library::{find_each, Lists, Part, Table, Verdict};
use crate::plain::{self, Known, FINE};
use crate::{lengths, Drive};

// What it answers, and the parts where they are written.
fn answer(known: &Known, table: Table, asks: &[u8], ask_starts: &[u32], parts: usize) -> (Verdict, Vec<Part>) {
    if known.verdict != FINE {
        return (known.verdict, Vec::new());
    }
    let questions = plain::names_verdict(asks, ask_starts);
    if questions != FINE {
        return (Verdict { what: 8, place: questions.place }, Vec::new());
    }
    let count = ask_starts.len() - 1;
    if parts != count {
        return (Verdict { what: 9, place: count as u64 }, Vec::new());
    }
    (FINE, (0..count).map(|number| known.part(table, plain::name(asks, ask_starts, number))).collect())
}

// What lies in the parts, and on both sides of them, before they are found.
const BLANK: Part = Part { place: 0xabcd, length: 0xef01 };

// Pages for what is lent beside table and lists.
struct Pages {
    asks: Fenced<u8>,
    ask_starts: Fenced<u32>,
    parts: Fenced<Part>,
}

fn ask(drive: &mut Drive, pages: &mut Pages, input: &Input, asks: &[u8], ask_starts: &[u32], parts: usize) {
    let Drive { random, memory, tally } = drive;
    let known = plain::know(input.table(), input.lists());
    let (verdict, found) = answer(&known, input.table(), asks, ask_starts, parts);
    let at_end = random.one_in(2);
    let around = random.of(&[0, 0, 4]);
    let mut after = vec![BLANK; parts + 2 * around];
    let lent = pages.parts.lend(&after, at_end);
    after[around..around + found.len()].copy_from_slice(&found);
    let table = Table {
        letters: memory.letters.lend(&input.letters, at_end),
        pairs: memory.pairs.lend(&input.pairs, at_end),
        how_many: input.how_many,
    };
    let lists = Lists {
        text: memory.text.lend(&input.text, at_end),
        starts: memory.starts.lend(&input.starts, at_end),
        places: memory.places.lend(&input.places, at_end),
    };
    let lent_asks = pages.asks.lend(asks, at_end);
    let lent_starts = pages.ask_starts.lend(ask_starts, at_end);
    let got = find_each(table, lists, lent_asks, lent_starts, &mut lent[around..around + parts]);
    tally.case(&format!("find_each: {}", verdict.what), got == verdict && *lent == after, || {
        let parts_say = match (0..after.len()).find(|at| lent[*at] != after[*at]) {
            Some(at) => format!("part {} is {:?}, not {:?}", at as isize - around as isize, lent[at], after[at]),
            None => "the parts are right".into(),
        };
        format!(
            "{got:?}, not {verdict:?}; {parts_say}; {}; parts {parts}, asked {asks:?} from {ask_starts:?}",
            lengths(input)
        )
    });
    let holds = memory.holds(input) && pages.asks.holds(asks) && pages.ask_starts.holds(ask_starts);
    tally.only_read(holds, input);
}

// Questions, one behind the other, and where each begins.
fn questions(random: &mut Random, input: &Input, how_many: usize, at_most: usize) -> (Vec<u8>, Vec<u32>) {
    let front = if random.one_in(4) { random.below(5) } else { 0 };
    let mut asks = inputs::text(random, &input.alphabet, front);
    let mut starts = vec![asks.len() as u32];
    for _ in 0..how_many {
        let mut ask = inputs::question(random, input);
        ask.truncate(at_most);
        asks.extend(ask);
        starts.push(asks.len() as u32);
    }
    (asks, starts)
}

// Lists and questions, some of them damaged, and parts for all questions or not; and many questions to a long list.
pub fn drive_each(drive: &mut Drive) {
    drive.tally.want((0..10).map(|what| format!("find_each: {what}")));
    let mut pages = Pages { asks: Fenced::new(256), ask_starts: Fenced::new(16), parts: Fenced::new(16) };
    for _ in 0..6000 {
        let random = &mut drive.random;
        let mut input = inputs::any_lists(random);
        let how_many = random.of(&[0, 1, 2, 5, 30]);
        // In some a question may be too long.
        let at_most = random.of(&[1000, 1000, 1000, 5000]);
        let (mut asks, mut ask_starts) = questions(random, &input, how_many, at_most);
        if random.one_in(2) {
            damage::any(random, &mut input);
        }
        if random.one_in(4) {
            damage::starts(random, &mut asks, &mut ask_starts);
        }
        let right = ask_starts.len().saturating_sub(1);
        let parts = random.of(&[right, right, right, right, right + 1, right.saturating_sub(1), 0]);
        ask(drive, &mut pages, &input, &asks, &ask_starts, parts);
    }
    let long = inputs::long_lists(&mut drive.random);
    let (asks, ask_starts) = questions(&mut drive.random, &long, 1000, 1000);
    ask(drive, &mut pages, &long, &asks, &ask_starts, 1000);
}
