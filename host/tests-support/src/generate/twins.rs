//! Files whose names and codes share the library's hash of them, or a part of it.
//!
//! The library looks for repeats by that hash (crates/star_unique): its low bits
//! are a bucket, and within a bucket bytes are compared where the others agree too.
//! What stands here must follow `hash` there; a file of another hash still is a
//! fair test, but no longer of names that share one.

use std::collections::HashSet;
use std::iter;

use super::{letter, Rng};
use crate::MOST_NAME_BYTES;

// ----------------------------------------------------------------- hash

/// How many values the hash has.
const HASHES: u32 = 1 << 20;
/// What the hash is multiplied by before a byte is added.
const FACTOR: u32 = 2685;

/// What a name or code is, and the hash that it begins with.
#[derive(Clone, Copy, Debug, PartialEq, Eq)]
pub enum Sort {
    /// The code of a data block.
    BlockCode = 1,
    /// The code of a save frame.
    FrameCode = 2,
    /// A name in a data or global block, outside of save frames.
    BlockName = 6,
    /// A name in a save frame.
    FrameName = 13,
}

/// All sorts.
pub const SORTS: [Sort; 4] = [Sort::BlockCode, Sort::FrameCode, Sort::BlockName, Sort::FrameName];

impl Sort {
    fn is_name(self) -> bool {
        matches!(self, Sort::BlockName | Sort::FrameName)
    }

    /// What its contents begin with.
    fn lead(self) -> &'static [u8] {
        if self.is_name() {
            b"_"
        } else {
            b""
        }
    }
}

/// The hash of a name or code.
pub fn hash(sort: Sort, content: &[u8]) -> u32 {
    hashed(sort as u32, content)
}

/// The hash, going on from this one with these bytes.
pub fn hashed(hash: u32, bytes: &[u8]) -> u32 {
    bytes.iter().fold(hash, |hash, &byte| (hash * FACTOR + u32::from(byte)) % HASHES)
}

/// The bucket of a hash.
pub fn bucket(hash: u32) -> u32 {
    hash % 4096
}

/// Every two bytes that a name may hold.
pub fn pairs() -> impl Iterator<Item = [u8; 2]> {
    (b'!'..=b'~').flat_map(|one| (b'!'..=b'~').map(move |two| [one, two]))
}

/// Two bytes of a name that lead from one hash to another, if there are any.
fn two_between(from: u32, to: u32) -> Option<[u8; 2]> {
    // what they are to add, which does not come round
    let added = (HASHES + to - hashed(from, &[0, 0])) % HASHES;
    let two = [added / FACTOR, added % FACTOR];
    two.iter().all(|byte| (33..=126).contains(byte)).then(|| two.map(|byte| byte as u8))
}

/// Four bytes of a name that lead from one hash to another, the first two of
/// them the first of these pairs that can be.
pub fn four_between(
    from: u32,
    to: u32,
    mut pairs: impl Iterator<Item = [u8; 2]>,
) -> Option<[u8; 4]> {
    pairs.find_map(|[one, two]| {
        let [three, four] = two_between(hashed(from, &[one, two]), to)?;
        Some([one, two, three, four])
    })
}

// ------------------------------------------------------------- contents

/// The lengths of names and codes.
#[derive(Clone, Copy, Debug, PartialEq, Eq)]
enum Lengths {
    /// All of one length, with so many letters after the first bytes.
    One(usize),
    /// Of many lengths, some the beginning of others.
    Many,
    /// Of many lengths, among them all of up to three letters.
    Short,
}

/// What the names and codes of one file share.
struct Shared {
    /// The low bits of their hashes, so many,
    bits: u32,
    /// before the last bytes those of this one.
    hash: u32,
    /// The first bytes after the `_` of a name.
    head: Vec<u8>,
    /// The last bytes.
    tail: Vec<u8>,
    lengths: Lengths,
}

fn letters(rng: &mut Rng, count: usize) -> Vec<u8> {
    (0..count).map(|_| letter(rng)).collect()
}

fn shuffle<T>(rng: &mut Rng, list: &mut [T]) {
    for at in 1..list.len() {
        list.swap(at, rng.below(at + 1));
    }
}

impl Shared {
    /// What the contents of a file share that has many of this sort.
    fn new(rng: &mut Rng, sort: Sort, bits: u32) -> Self {
        if rng.once_in(4) {
            let count = rng.between(1, 3);
            let hash = hashed(hash(sort, sort.lead()), &letters(rng, count));
            return Shared { bits, hash, head: vec![], tail: vec![], lengths: Lengths::Short };
        }
        let [head, tail] = [(); 2].map(|()| {
            let count = rng.pick(&[0, 0, 1, 4, 8]);
            letters(rng, count)
        });
        let most = MOST_NAME_BYTES - 5 - head.len() - tail.len();
        let lengths =
            if rng.once_in(2) { Lengths::Many } else { Lengths::One(rng.between(2, most)) };
        Shared { bits, hash: rng.below(HASHES as usize) as u32, head, tail, lengths }
    }

    /// One of the hashes before the last bytes. Above the shared bits they differ
    /// as long as they can.
    fn hash(&self, number: usize) -> u32 {
        let others = 1 << (20 - self.bits);
        (self.hash + (number as u32 % others) * (1 << self.bits)) % HASHES
    }

    /// So many unlike names or codes.
    fn contents(&self, rng: &mut Rng, sort: Sort, count: usize) -> Vec<Vec<u8>> {
        let mut bodies = Vec::new();
        if self.lengths == Lengths::Short {
            bodies = self.short(sort);
            shuffle(rng, &mut bodies);
            bodies.truncate(count);
        }
        let mut taken: HashSet<_> = bodies.iter().cloned().collect();
        while bodies.len() < count {
            let front = self.front(rng, sort, &bodies);
            let to = self.hash(bodies.len());
            let pairs = iter::repeat_with(|| [(); 2].map(|()| rng.between(33, 126) as u8));
            // at times no four bytes lead there
            if let Some(four) = four_between(hash(sort, &front), to, pairs.take(2_000)) {
                let body = [front.as_slice(), &four].concat();
                if taken.insert(body.clone()) {
                    bodies.push(body);
                }
            }
        }
        bodies.iter_mut().for_each(|body| body.extend_from_slice(&self.tail));
        bodies
    }

    /// All names or codes of up to three letters.
    fn short(&self, sort: Sort) -> Vec<Vec<u8>> {
        let hashes: Vec<u32> = (0..1 << (20 - self.bits)).map(|number| self.hash(number)).collect();
        let ones = || (b'!'..=b'~').map(|one| [sort.lead(), &[one]].concat());
        let mut contents: Vec<_> =
            ones().filter(|content| hashes.contains(&hash(sort, content))).collect();
        for front in iter::once(sort.lead().to_vec()).chain(ones()) {
            let ends = hashes.iter().filter_map(|&to| two_between(hash(sort, &front), to));
            contents.extend(ends.map(|end| [front.as_slice(), &end].concat()));
        }
        contents
    }

    /// What stands before four bytes and the last: the first bytes and letters,
    /// or where lengths differ also a whole other name or code.
    fn front(&self, rng: &mut Rng, sort: Sort, others: &[Vec<u8>]) -> Vec<u8> {
        let most = MOST_NAME_BYTES - 4 - self.tail.len();
        let first = [sort.lead(), &self.head].concat();
        if let Lengths::One(count) = self.lengths {
            return [first, letters(rng, count)].concat();
        }
        let others: Vec<_> = others.iter().filter(|other| other.len() <= most).collect();
        if !others.is_empty() && rng.once_in(4) {
            return rng.pick(&others).clone();
        }
        let count = rng.below(most - first.len() + 1);
        [first, letters(rng, count)].concat()
    }
}

// ---------------------------------------------------------------- files

/// What a file is to hold.
#[derive(Clone, Copy, Debug)]
pub struct Plan {
    /// The sort that its scopes hold many of.
    pub sort: Sort,
    /// How many each of them holds, 1 or more.
    pub count: usize,
    /// How many low bits their hashes share: 12 is the bucket, 20 all.
    pub bits: u32,
    /// Whether one of them comes again in its scope.
    pub repeats: bool,
}

/// The most that a scope of another sort holds, unless it holds as many.
const FEW: usize = 3;

/// How many of each sort a scope of it holds.
struct Sizes {
    blocks: usize,
    block_names: usize,
    frames: usize,
    frame_names: usize,
}

impl Sizes {
    fn of(rng: &mut Rng, plan: Plan) -> Self {
        let count = plan.count;
        let (two, few, any) = (rng.between(1, 2), rng.below(FEW + 1), rng.pick(&[0, FEW, count]));
        let [blocks, block_names, frames, frame_names] = match plan.sort {
            Sort::BlockCode => [count, few, few.min(1), few],
            Sort::FrameCode => [two, few, count, few],
            Sort::BlockName => [two, count, few, any],
            Sort::FrameName => [two, any, rng.between(1, 2), count],
        };
        Sizes { blocks, block_names, frames, frame_names }
    }

    /// How many scopes a sort has.
    fn scopes(&self, sort: Sort) -> usize {
        match sort {
            Sort::BlockCode => 1,
            Sort::FrameCode | Sort::BlockName => self.blocks,
            Sort::FrameName => self.blocks * self.frames,
        }
    }
}

/// A file of names and codes whose hashes share bits. All scopes of names have the
/// same names and all scopes of codes the same codes, each in an order of its own:
/// a block and its frames, two frames, two blocks, data or global. One scope may
/// have a repeat.
pub fn file(rng: &mut Rng, plan: Plan) -> Vec<u8> {
    let shared = Shared::new(rng, plan.sort, plan.bits);
    let mut pool = |sorts: [Sort; 2]| {
        let own = sorts.contains(&plan.sort);
        let sort = if own { plan.sort } else { rng.pick(&sorts) };
        shared.contents(rng, sort, if own { plan.count.max(FEW) } else { FEW })
    };
    let codes = pool([Sort::BlockCode, Sort::FrameCode]);
    let names = pool([Sort::BlockName, Sort::FrameName]);
    let sizes = Sizes::of(rng, plan);
    let repeat = plan.repeats.then(|| rng.below(sizes.scopes(plan.sort)));
    let mut writer = Writer { rng, sort: plan.sort, repeat, codes, names, file: Vec::new() };
    for code in writer.scope(Sort::BlockCode, sizes.blocks) {
        // a global block has no code: it stands before the data block where codes
        // matter, else in its place
        let global = writer.rng.once_in(3);
        if global {
            writer.block("global_", b"", &sizes);
        }
        if !global || plan.sort == Sort::BlockCode {
            writer.block("data_", &code, &sizes);
        }
    }
    writer.file
}

struct Writer<'r> {
    rng: &'r mut Rng,
    /// The sort that has the repeat.
    sort: Sort,
    /// How many of its scopes come before the one that has it.
    repeat: Option<usize>,
    codes: Vec<Vec<u8>>,
    names: Vec<Vec<u8>>,
    file: Vec<u8>,
}

impl Writer<'_> {
    /// The names or codes of the next scope of a sort.
    fn scope(&mut self, sort: Sort, count: usize) -> Vec<Vec<u8>> {
        let pool = if sort.is_name() { &self.names } else { &self.codes };
        let mut scope = pool[..count].to_vec();
        shuffle(self.rng, &mut scope);
        if sort == self.sort {
            if self.repeat == Some(0) {
                repeat_one(self.rng, &mut scope);
            }
            self.repeat = self.repeat.and_then(|before| before.checked_sub(1));
        }
        scope
    }

    fn word(&mut self, lead: &str, content: &[u8]) {
        self.file.extend([lead.as_bytes(), content, b"\n"].concat());
    }

    /// A heading, and frames between its names.
    fn block(&mut self, keyword: &str, code: &[u8], sizes: &Sizes) {
        self.word(keyword, code);
        let names = self.scope(Sort::BlockName, sizes.block_names);
        let (before, after) = names.split_at(self.rng.below(names.len() + 1));
        self.items(before);
        for code in self.scope(Sort::FrameCode, sizes.frames) {
            self.word("save_", &code);
            let names = self.scope(Sort::FrameName, sizes.frame_names);
            self.items(&names);
            self.word("save_", b"");
        }
        self.items(after);
    }

    /// Names in single items and in loops.
    fn items(&mut self, mut names: &[Vec<u8>]) {
        while !names.is_empty() {
            let (some, rest) = names.split_at(self.rng.between(1, names.len()));
            if self.rng.once_in(2) {
                self.data_loop(some);
            } else {
                for name in some {
                    self.word("", name);
                    self.word("1", b"");
                }
            }
            names = rest;
        }
    }

    /// A loop of one level or two, and one packet.
    fn data_loop(&mut self, names: &[Vec<u8>]) {
        let outer =
            if self.rng.once_in(2) { names.len() } else { self.rng.between(1, names.len()) };
        for (at, name) in names.iter().enumerate() {
            self.word(if at == 0 || at == outer { "loop_\n" } else { "" }, name);
        }
        self.word(&"1 ".repeat(outer), if outer < names.len() { b"stop_" } else { b"" });
    }
}

/// Puts one of a scope again somewhere after it: the first, the last or any, at
/// once, at the end or anywhere.
fn repeat_one(rng: &mut Rng, scope: &mut Vec<Vec<u8>>) {
    let (count, any) = (scope.len(), rng.below(scope.len()));
    let one = rng.pick(&[0, any, count - 1]);
    let anywhere = rng.between(one + 1, count);
    scope.insert(rng.pick(&[one + 1, anywhere, count]), scope[one].clone());
}

#[cfg(test)]
mod tests {
    use super::*;

    /// How many different ones there are.
    fn different<T: Eq + std::hash::Hash>(all: impl Iterator<Item = T>) -> usize {
        all.collect::<HashSet<T>>().len()
    }

    /// Whether one of them is the beginning of another.
    fn one_begins(contents: &[Vec<u8>]) -> bool {
        let begins = |one: &Vec<u8>, other: &Vec<u8>| one != other && other.starts_with(one);
        contents.iter().any(|one| contents.iter().any(|other| begins(one, other)))
    }

    #[test]
    fn contents_share_what_they_are_to_share() {
        // of one length, one the beginning of another, two or more of up to three letters
        let mut tally = [0u32; 3];
        for seed in 0..300 {
            let rng = &mut Rng::new(seed);
            let (sort, bits) = (rng.pick(&SORTS), rng.pick(&[12, 12, 13, 16, 19, 20, 20]));
            let contents = Shared::new(rng, sort, bits).contents(rng, sort, 300);
            let hashes = || contents.iter().map(|content| hash(sort, content));
            let lengths = || contents.iter().map(Vec::len);
            assert_eq!(different(contents.iter()), 300, "seed {seed}");
            assert_eq!(different(hashes().map(|hash| hash % (1 << bits))), 1, "seed {seed}");
            assert_eq!(different(hashes()) == 1, bits == 20, "seed {seed}");
            assert!(lengths().all(|length| length <= MOST_NAME_BYTES), "seed {seed}");
            let short = lengths().filter(|&length| length <= sort.lead().len() + 3).count();
            tally[0] += u32::from(different(lengths()) == 1);
            tally[1] += u32::from(one_begins(&contents));
            tally[2] += u32::from(short > 1);
        }
        assert!(tally.iter().all(|&count| count > 30), "{tally:?}");
    }
}
