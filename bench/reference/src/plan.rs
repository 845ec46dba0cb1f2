//! The plan and its bytes.

use crate::refusal::{Refusal, Rule};

pub const MOST_PARTITIONS: usize = 8;
pub const MOST_SLOTS: usize = 64;
pub const MOST_CHANNELS: usize = 16;

const HEADER: usize = 7;
const PARTITION: usize = 6;
const SLOT: usize = 5;
const CHANNEL: usize = 10;

/// The most bytes that three counts can ask for.
pub const MOST_BYTES: usize = HEADER + 255 * (PARTITION + SLOT + CHANNEL);

#[derive(Clone, Debug, PartialEq, Eq)]
pub struct Partition {
    pub root: usize,
    pub start: u32,
}

#[derive(Clone, Debug, PartialEq, Eq)]
pub struct Slot {
    pub partition: usize,
    pub length: u32,
}

#[derive(Clone, Debug, PartialEq, Eq)]
pub struct Channel {
    pub from: usize,
    pub to: usize,
    pub source: u32,
    pub target: u32,
}

#[derive(Clone, Debug, PartialEq, Eq)]
pub struct Plan {
    pub budget: u32,
    pub partitions: Vec<Partition>,
    pub slots: Vec<Slot>,
    pub channels: Vec<Channel>,
}

impl Plan {
    /// The plan that bytes say, and how many of them it takes. Rules 1 and 2 are looked at here, as they decide what can be read.
    pub fn parse(bytes: &[u8]) -> Result<(Plan, usize), Refusal> {
        let truncated = Refusal::new(Rule::Truncated, bytes.len());
        let [partitions, slots, channels] = *bytes.first_chunk::<3>().ok_or(truncated)?;
        let [partitions, slots, channels] = [partitions, slots, channels].map(usize::from);
        let length = HEADER + PARTITION * partitions + SLOT * slots + CHANNEL * channels;
        if bytes.len() < length {
            return Err(truncated);
        }
        if !(1..=MOST_PARTITIONS).contains(&partitions) {
            return Err(Refusal::new(Rule::Counts, 0));
        }
        if !(1..=MOST_SLOTS).contains(&slots) {
            return Err(Refusal::new(Rule::Counts, 1));
        }
        if channels > MOST_CHANNELS {
            return Err(Refusal::new(Rule::Counts, 2));
        }
        let (header, rest) = bytes.split_at(HEADER);
        let (partition_bytes, rest) = rest.split_at(PARTITION * partitions);
        let (slot_bytes, rest) = rest.split_at(SLOT * slots);
        let channel_bytes = &rest[..CHANNEL * channels];
        let plan = Plan {
            budget: number(&header[3..]),
            partitions: partition_bytes.chunks_exact(PARTITION).map(Partition::read).collect(),
            slots: slot_bytes.chunks_exact(SLOT).map(Slot::read).collect(),
            channels: channel_bytes.chunks_exact(CHANNEL).map(Channel::read).collect(),
        };
        Ok((plan, length))
    }

    /// The most channels out of one partition.
    pub fn most_channels_out(&self) -> usize {
        let out = |p| self.channels.iter().filter(|c| c.from == p).count();
        (0..self.partitions.len()).map(out).max().unwrap_or(0)
    }

    /// The bytes of the plan.
    pub fn to_bytes(&self) -> Vec<u8> {
        let mut bytes = vec![self.partitions.len() as u8, self.slots.len() as u8, self.channels.len() as u8];
        bytes.extend(self.budget.to_le_bytes());
        for partition in &self.partitions {
            bytes.extend((partition.root as u16).to_le_bytes());
            bytes.extend(partition.start.to_le_bytes());
        }
        for slot in &self.slots {
            bytes.push(slot.partition as u8);
            bytes.extend(slot.length.to_le_bytes());
        }
        for channel in &self.channels {
            bytes.extend([channel.from as u8, channel.to as u8]);
            bytes.extend(channel.source.to_le_bytes());
            bytes.extend(channel.target.to_le_bytes());
        }
        bytes
    }
}

impl Partition {
    fn read(bytes: &[u8]) -> Self {
        Partition { root: usize::from(u16::from_le_bytes([bytes[0], bytes[1]])), start: number(&bytes[2..]) }
    }
}

impl Slot {
    fn read(bytes: &[u8]) -> Self {
        Slot { partition: usize::from(bytes[0]), length: number(&bytes[1..]) }
    }
}

impl Channel {
    fn read(bytes: &[u8]) -> Self {
        Channel { from: usize::from(bytes[0]), to: usize::from(bytes[1]), source: number(&bytes[2..]), target: number(&bytes[6..]) }
    }
}

/// Four bytes, low byte first.
fn number(bytes: &[u8]) -> u32 {
    u32::from_le_bytes([bytes[0], bytes[1], bytes[2], bytes[3]])
}
