//! The checker: the first broken rule by number, and within a rule by place.

use crate::memory::{Memory, FRAME_WORDS, MOST_FRAMES};
use crate::paging::{find_leaf, Entry, Leaf, NoLeaf};
use crate::plan::{Channel, Plan};
use crate::refusal::{Refusal, Rule};
use crate::tables::{COPIED_WORD, HIGHEST, LINES, WRITE_BACK};

const SLOT_LENGTHS: std::ops::RangeInclusive<u32> = 128..=1_000_000;
const BUDGETS: std::ops::RangeInclusive<u32> = 64..=100_000;

/// A plan that keeps all rules, with the frames that its channels join.
#[derive(Clone, Debug)]
pub struct Accepted {
    pub plan: Plan,
    pub links: Vec<Link>,
}

/// The frames behind the two pages of a channel.
#[derive(Clone, Copy, Debug, PartialEq, Eq)]
pub struct Link {
    pub source: usize,
    pub target: usize,
}

/// A set of frames below 256.
struct FrameSet([bool; MOST_FRAMES]);

impl FrameSet {
    fn new() -> Self {
        FrameSet([false; MOST_FRAMES])
    }

    fn insert(&mut self, frame: usize) {
        self.0[frame] = true;
    }

    fn iter(&self) -> impl Iterator<Item = usize> + '_ {
        (0..MOST_FRAMES).filter(|&frame| self.0[frame])
    }

    fn meets(&self, other: &FrameSet) -> bool {
        self.iter().any(|frame| other.0[frame])
    }
}

/// The frames that a partition's page tables concern.
struct Reach {
    /// its root and tables
    kernel: FrameSet,
    /// what its leaves name
    named: FrameSet,
}

/// Checks a plan against the lent frames.
pub fn check(bytes: &[u8], memory: &Memory) -> Result<Accepted, Refusal> {
    let (plan, length) = Plan::parse(bytes)?;
    check_slots(&plan)?;
    check_channels(&plan)?;
    let links = check_pages(&plan, memory)?;
    check_roots(&plan, memory)?;
    let reaches = check_tables(&plan, memory)?;
    check_sharing(&reaches)?;
    check_starts(&plan)?;
    check_budget(&plan)?;
    check_lent(&reaches, memory)?;
    if bytes.len() > length {
        return Err(Refusal::new(Rule::Surplus, length));
    }
    Ok(Accepted { plan, links })
}

fn check_slots(plan: &Plan) -> Result<(), Refusal> {
    let broken = plan.slots.iter().position(|slot| slot.partition >= plan.partitions.len() || !SLOT_LENGTHS.contains(&slot.length));
    broken.map_or(Ok(()), |place| Err(Refusal::new(Rule::Slot, place)))
}

fn check_channels(plan: &Plan) -> Result<(), Refusal> {
    let partitions = plan.partitions.len();
    let broken =
        plan.channels.iter().position(|channel| channel.from >= partitions || channel.to >= partitions || channel.from == channel.to);
    broken.map_or(Ok(()), |place| Err(Refusal::new(Rule::ChannelPartition, place)))
}

fn check_pages(plan: &Plan, memory: &Memory) -> Result<Vec<Link>, Refusal> {
    let mut links: Vec<Link> = Vec::new();
    for (place, channel) in plan.channels.iter().enumerate() {
        let link = find_link(plan, channel, memory).map_err(|reason| match reason {
            NoLeaf::Fault => Refusal::new(Rule::ChannelPage, place),
            NoLeaf::NotLent => Refusal::not_lent(),
        })?;
        let taken = |frame| links.iter().any(|other| other.source == frame || other.target == frame);
        if taken(link.source) || taken(link.target) {
            return Err(Refusal::new(Rule::ChannelPage, place));
        }
        links.push(link);
    }
    Ok(links)
}

/// The frames of a channel: the sender may read its page, the receiver may read and not write.
fn find_link(plan: &Plan, channel: &Channel, memory: &Memory) -> Result<Link, NoLeaf> {
    let leaf = |partition: usize, page: u32, usable: fn(&Leaf) -> bool| {
        let leaf = find_leaf(memory, plan.partitions[partition].root, page)?;
        Some(leaf).filter(usable).ok_or(NoLeaf::Fault)
    };
    let source = leaf(channel.from, channel.source, |leaf| leaf.read)?;
    let target = leaf(channel.to, channel.target, |leaf| leaf.read && !leaf.write)?;
    Ok(Link { source: usize::from(source.frame), target: usize::from(target.frame) })
}

fn check_roots(plan: &Plan, memory: &Memory) -> Result<(), Refusal> {
    if memory.frames() > MOST_FRAMES {
        return Err(Refusal::new(Rule::Root, 0));
    }
    for (place, partition) in plan.partitions.iter().enumerate() {
        let earlier = &plan.partitions[..place];
        if partition.root >= MOST_FRAMES || earlier.iter().any(|other| other.root == partition.root) {
            return Err(Refusal::new(Rule::Root, place));
        }
    }
    Ok(())
}

fn check_tables(plan: &Plan, memory: &Memory) -> Result<Vec<Reach>, Refusal> {
    let reach = |(place, partition)| read_tables(place, partition, memory);
    plan.partitions.iter().map(|partition| partition.root).enumerate().map(reach).collect()
}

fn read_tables(place: usize, root: usize, memory: &Memory) -> Result<Reach, Refusal> {
    let malformed = Refusal::new(Rule::Table, place);
    let mut reach = Reach { kernel: FrameSet::new(), named: FrameSet::new() };
    if !memory.has(root) {
        return Err(Refusal::not_lent());
    }
    reach.kernel.insert(root);
    for entry in valid_entries(memory.frame(root)) {
        let table = entry.frame().filter(|_| entry.pointer()).ok_or(malformed)?;
        let table = usize::from(table);
        if !memory.has(table) {
            return Err(Refusal::not_lent());
        }
        reach.kernel.insert(table);
        for entry in valid_entries(memory.frame(table)) {
            let named = entry.frame().filter(|_| entry.leaf_form()).ok_or(malformed)?;
            reach.named.insert(usize::from(named));
        }
    }
    Ok(reach)
}

fn valid_entries(frame: &[u32]) -> impl Iterator<Item = Entry> + '_ {
    debug_assert_eq!(frame.len(), FRAME_WORDS);
    frame.iter().map(|&word| Entry(word)).filter(|entry| entry.valid())
}

/// The later partition of each two in conflict is the place; a partition may be in conflict with itself.
fn check_sharing(reaches: &[Reach]) -> Result<(), Refusal> {
    for (place, later) in reaches.iter().enumerate() {
        let conflict = later.named.meets(&later.kernel)
            || reaches[..place].iter().any(|earlier| {
                earlier.named.meets(&later.named) || earlier.named.meets(&later.kernel) || earlier.kernel.meets(&later.named)
            });
        if conflict {
            return Err(Refusal::new(Rule::Shared, place));
        }
    }
    Ok(())
}

fn check_starts(plan: &Plan) -> Result<(), Refusal> {
    let broken = plan.partitions.iter().position(|partition| partition.start % 4 != 0);
    broken.map_or(Ok(()), |place| Err(Refusal::new(Rule::Start, place)))
}

/// The least budget that is ample.
pub fn ample(plan: &Plan) -> u32 {
    let overshoot = HIGHEST - 1;
    let write_backs = LINES as u64 * WRITE_BACK;
    let messages = plan.most_channels_out() as u64 * FRAME_WORDS as u64 * COPIED_WORD;
    (overshoot + write_backs + messages) as u32
}

fn check_budget(plan: &Plan) -> Result<(), Refusal> {
    if BUDGETS.contains(&plan.budget) && plan.budget >= ample(plan) {
        Ok(())
    } else {
        Err(Refusal::new(Rule::Budget, 3))
    }
}

fn check_lent(reaches: &[Reach], memory: &Memory) -> Result<(), Refusal> {
    if reaches.iter().flat_map(|reach| reach.named.iter()).all(|frame| memory.has(frame)) {
        Ok(())
    } else {
        Err(Refusal::not_lent())
    }
}
