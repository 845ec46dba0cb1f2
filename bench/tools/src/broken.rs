//! Cases with broken rules: an accepted case, and one or a few changes to the bytes of its plan and image.

use reference::checker::ample;
use reference::image;
use reference::memory::{Memory, FRAME_WORDS};
use reference::paging::{A, D, R, U, V, W, X};
use reference::plan::{Channel, Plan};

use crate::case::Case;
use crate::rng::Rng;

/// The files of a case.
pub struct Files {
    pub plan: Vec<u8>,
    pub image: Vec<u8>,
    pub slots: u32,
}

impl Files {
    pub fn of(case: &Case) -> Self {
        Files { plan: case.plan.to_bytes(), image: image::to_bytes(&case.memory), slots: case.slots }
    }
}

/// Breaks a case at random, mostly by one change; some changes break nothing.
pub fn broken(mut case: Case, rng: &mut Rng) -> Files {
    let changes = *rng.pick(&[0, 0, 0, 1, 1, 1, 1, 1, 2, 3]);
    for _ in 0..changes {
        change_case(&mut case, rng);
    }
    let mut files = Files::of(&case);
    if changes == 0 || rng.chance(20) {
        change_bytes(&mut files, rng);
    }
    files
}

fn change_case(case: &mut Case, rng: &mut Rng) {
    match rng.below(22) {
        0 => break_slot(&mut case.plan, rng),
        1 => break_channel(&mut case.plan, rng),
        2..=4 => break_page(case, rng),
        5 | 6 => break_permission(case, rng),
        7..=9 => second_message(case, rng),
        10 | 11 => break_root(case, rng),
        12..=14 => break_entry(case, rng),
        15..=17 => share_frame(case, rng),
        18 => break_start(&mut case.plan, rng),
        19 => break_budget(&mut case.plan, rng),
        20 => lend_fewer(case, rng),
        _ => flip_entry_bit(case, rng),
    }
}

fn break_slot(plan: &mut Plan, rng: &mut Rng) {
    let partitions = plan.partitions.len();
    let at = rng.below(plan.slots.len());
    let slot = &mut plan.slots[at];
    match rng.below(3) {
        0 => slot.partition = *rng.pick(&[partitions, partitions + 1, 255]),
        _ => slot.length = *rng.pick(&[0, 1, 127, 128, 1_000_000, 1_000_001, u32::MAX]),
    }
}

fn break_channel(plan: &mut Plan, rng: &mut Rng) {
    let partitions = plan.partitions.len();
    if plan.channels.is_empty() || (rng.chance(20) && plan.channels.len() < 16) {
        let (source, target) = (rng.below(40) as u32, rng.below(40) as u32);
        plan.channels.push(Channel { from: rng.below(partitions), to: rng.below(partitions), source, target });
        return;
    }
    let at = rng.below(plan.channels.len());
    let channel = &mut plan.channels[at];
    match rng.below(3) {
        0 => channel.from = *rng.pick(&[partitions, 255, channel.to]),
        1 => channel.to = *rng.pick(&[partitions, 255, channel.from]),
        _ => std::mem::swap(&mut channel.from, &mut channel.to),
    }
}

/// Changes a channel's pages.
fn break_page(case: &mut Case, rng: &mut Rng) {
    if case.plan.channels.is_empty() {
        return break_channel(&mut case.plan, rng);
    }
    let at = rng.below(case.plan.channels.len());
    let other = rng.below(case.plan.channels.len());
    let (source, target) = (case.plan.channels[other].source, case.plan.channels[other].target);
    let channel = case.plan.channels[at].clone();
    match rng.below(5) {
        0 => case.plan.channels[at].source = *rng.pick(&[source, target, channel.source | 1 << 20, 1 << 20, u32::MAX]),
        1 => case.plan.channels[at].target = *rng.pick(&[source, target, channel.target | 1 << 20, 1 << 20, u32::MAX]),
        2 => case.plan.channels[at].source = channel.source.wrapping_add(1),
        3 => case.plan.channels[at].target = channel.target ^ 1,
        _ if case.plan.channels.len() < 16 => case.plan.channels.push(channel),
        _ => {}
    }
}

/// Changes the entry behind a channel's page.
fn break_permission(case: &mut Case, rng: &mut Rng) {
    if case.plan.channels.is_empty() {
        return;
    }
    let channel = rng.pick(&case.plan.channels);
    let sender = rng.chance(40);
    let (partition, page) = if sender { (channel.from, channel.source) } else { (channel.to, channel.target) };
    let any = *rng.pick(&[V, R, W, X, U, A, D, R | X, W | X, 1 << 10, 1 << 18, 1 << 31]);
    let flipped = if !sender && rng.chance(50) { W } else { any };
    if let Some((table, index)) = second_level(case, partition, page) {
        *case.memory.word_mut(table, index) ^= flipped;
    }
}

/// A further channel, with a page of its own at one end and a page of another channel at the other.
fn second_message(case: &mut Case, rng: &mut Rng) {
    if case.plan.channels.is_empty() || case.plan.channels.len() == 16 {
        return;
    }
    let mut channel = rng.pick(&case.plan.channels).clone();
    let ends = rng.chance(50);
    let (partition, page) = if ends { (channel.from, &mut channel.source) } else { (channel.to, &mut channel.target) };
    let (_, leaves) = entries(case, partition);
    if leaves.is_empty() {
        return;
    }
    // the tables of generated partitions mostly hold the first pages
    *page = rng.pick(&leaves).1 as u32;
    case.plan.channels.push(channel);
    case.plan.budget = case.plan.budget.max(ample(&case.plan));
}

/// Where the second-level entry of a page stands, if all on the way is in the memory.
fn second_level(case: &Case, partition: usize, page: u32) -> Option<(usize, usize)> {
    let root = case.plan.partitions.get(partition).filter(|p| case.memory.has(p.root))?.root;
    let first = case.memory.word(root, page as usize / FRAME_WORDS % FRAME_WORDS);
    let table = (first >> 10) as usize;
    (first & V != 0 && case.memory.has(table)).then_some((table, page as usize % FRAME_WORDS))
}

fn break_root(case: &mut Case, rng: &mut Rng) {
    let count = case.plan.partitions.len();
    let (at, other) = (rng.below(count), rng.below(count));
    let lent = case.memory.frames();
    match rng.below(8) {
        0 => extend(&mut case.memory, 257),
        1 => extend(&mut case.memory, 256),
        2 => case.plan.partitions[at].root = *rng.pick(&[256, 257, 0xffff]),
        3 => case.plan.partitions[at].root = *rng.pick(&[lent, lent + 1, 255]),
        4 => case.plan.partitions[at].root = rng.below(lent.max(1)),
        _ => case.plan.partitions[at].root = case.plan.partitions[other].root,
    }
}

fn extend(memory: &mut Memory, frames: usize) {
    let mut words: Vec<u32> = (0..memory.frames()).flat_map(|frame| memory.frame(frame).to_vec()).collect();
    words.resize(frames * FRAME_WORDS, 0);
    *memory = Memory::new(words);
}

/// The valid entries of a partition: of its root, and of its tables.
fn entries(case: &Case, partition: usize) -> (Vec<(usize, usize)>, Vec<(usize, usize)>) {
    let valid = |frame: usize| (0..FRAME_WORDS).filter(move |&k| case.memory.word(frame, k) & V != 0).map(move |k| (frame, k));
    let root = case.plan.partitions[partition].root;
    if !case.memory.has(root) {
        return (Vec::new(), Vec::new());
    }
    let first: Vec<_> = valid(root).collect();
    let tables = first.iter().map(|&(frame, k)| (case.memory.word(frame, k) >> 10) as usize);
    let second = tables.filter(|&table| case.memory.has(table)).flat_map(valid).collect();
    (first, second)
}

fn break_entry(case: &mut Case, rng: &mut Rng) {
    let partition = rng.below(case.plan.partitions.len());
    let (first, second) = entries(case, partition);
    let root_level = rng.chance(35);
    let of = if root_level { &first } else { &second };
    if of.is_empty() {
        return;
    }
    let (frame, index) = *rng.pick(of);
    let free = rng.below(FRAME_WORDS);
    let far = *rng.pick(&[256, 300, 0x3f_ffff]) << 10;
    let lent = case.memory.frames() as u32;
    let place = case.memory.word_mut(frame, index);
    match rng.below(6) {
        0 => *place ^= *rng.pick(&[R, W, X, R | W, R | X]),
        1 => *place &= !*rng.pick(&[U, A, D, R | W | X, R]),
        2 => *place = *place & 0x3ff | far,
        3 => *place = *place & 0x3ff | *rng.pick(&[lent, 255]) << 10,
        4 => {
            let word = *place;
            *case.memory.word_mut(frame, free) = word;
        }
        _ => *case.memory.word_mut(frame, free) = rng.word(),
    }
}

/// Lets a leaf or a pointer of one partition name a frame that may be another's.
fn share_frame(case: &mut Case, rng: &mut Rng) {
    let count = case.plan.partitions.len();
    let (one, other) = (rng.below(count), rng.below(count));
    let (first, second) = entries(case, one);
    let (first_other, second_other) = entries(case, other);
    let root = case.plan.partitions[other].root as u32;
    let mut frames = vec![root];
    for of in [&first_other, &second_other] {
        if !of.is_empty() {
            let (frame, index) = *rng.pick(of);
            frames.push(case.memory.word(frame, index) >> 10);
            frames.push(frame as u32);
        }
    }
    let of = if rng.chance(75) { &second } else { &first };
    if of.is_empty() {
        return;
    }
    let (frame, index) = *rng.pick(of);
    let named = *rng.pick(&frames);
    let place = if rng.chance(60) { index } else { rng.below(FRAME_WORDS) };
    let word = case.memory.word(frame, index) & 0x3ff | named << 10;
    *case.memory.word_mut(frame, place) = word;
}

fn break_start(plan: &mut Plan, rng: &mut Rng) {
    let at = rng.below(plan.partitions.len());
    plan.partitions[at].start ^= rng.between(1, 3) as u32;
}

fn break_budget(plan: &mut Plan, rng: &mut Rng) {
    let least = ample(plan);
    plan.budget = *rng.pick(&[0, 63, 64, 729, 730, least - 1, least, 100_000, 100_001, u32::MAX]);
}

/// Fewer frames than before, in the count too.
fn lend_fewer(case: &mut Case, rng: &mut Rng) {
    let frames = case.memory.frames();
    extend(&mut case.memory, if rng.chance(50) { frames.saturating_sub(1) } else { rng.below(frames + 1) });
}

fn flip_entry_bit(case: &mut Case, rng: &mut Rng) {
    let partition = rng.below(case.plan.partitions.len());
    let (first, second) = entries(case, partition);
    let all: Vec<_> = first.into_iter().chain(second).collect();
    if !all.is_empty() {
        let (frame, index) = *rng.pick(&all);
        *case.memory.word_mut(frame, index) ^= 1 << rng.below(32);
    }
}

fn change_bytes(files: &mut Files, rng: &mut Rng) {
    match rng.below(10) {
        0 => files.plan.truncate(rng.below(files.plan.len())),
        1 => files.plan.extend((0..rng.between(1, 30)).map(|_| 0)),
        2 => change_counts(&mut files.plan, rng),
        3 => files.image.truncate(rng.below(files.image.len())),
        4 => files.image.truncate(files.image.len() - 1),
        5 => files.image.extend((0..rng.between(1, 5000)).map(|_| 7)),
        6 => change_count(&mut files.image, rng),
        7 => files.image.truncate(rng.below(4)),
        _ => {
            for _ in 0..rng.between(1, 3) {
                let at = rng.below(files.plan.len());
                files.plan[at] ^= 1 << rng.below(8);
            }
        }
    }
}

fn change_counts(plan: &mut Vec<u8>, rng: &mut Rng) {
    plan[rng.below(3)] = *rng.pick(&[0, 1, 9, 17, 65, 255]);
    if rng.chance(80) {
        plan.resize(plan.len() + rng.between(0, 6000), 0);
    }
}

fn change_count(image: &mut [u8], rng: &mut Rng) {
    if let Some(count) = image.first_chunk_mut::<2>() {
        let old = u16::from_le_bytes(*count);
        let new = *rng.pick(&[old.wrapping_sub(1), old.wrapping_add(1), 0, 256, 257, 0xffff]);
        *count = new.to_le_bytes();
    }
}
