//! Document 02, ticket 7: the verdict on a transport buffer, which is a queue of packets that drains from its front.

use std::collections::VecDeque;

use crate::numbers_of_the_house::{PACKET_TICKS, ROOM_TICKS, TICKS_A_SECOND};
use crate::refusal_numbers::{demand, Refusal};

/// One packet of a stream, as the caller lends it.
#[derive(Clone, Copy, Debug, PartialEq, Eq)]
pub struct Record {
    pub tick: u64,
    pub pid: u16,
}

/// That no rule is broken, or the index of the first record that breaks one, and which.
#[derive(Clone, Copy, Debug, PartialEq, Eq)]
pub enum Verdict {
    Passes,
    Overruns(usize),
    Lingers(usize),
}

/// The verdict on the packets of the PID.
pub fn judge(records: &[Record], pid: u16) -> Result<Verdict, Refusal> {
    let indexed = records.iter().enumerate();
    let own: Vec<(usize, &Record)> = indexed.filter(|(_, record)| record.pid == pid).collect();
    let falls = |two: &[(usize, &Record)]| two[1].1.tick < two[0].1.tick;
    demand(!own.windows(2).any(falls), 70)?;
    let mut buffer = Buffer::default();
    for (index, record) in own {
        buffer.arrive(record.tick);
        if buffer.overrun() {
            return Ok(Verdict::Overruns(index));
        }
        if buffer.lingering() {
            return Ok(Verdict::Lingers(index));
        }
    }
    Ok(Verdict::Passes)
}

/// The buffer at one tick; ticks have 128 bits, so that every drain comes to its end.
#[derive(Clone, Default)]
struct Buffer {
    now: u128,
    /// When a packet last found the buffer empty.
    since: u128,
    /// How many 108ths of a byte each packet has left, the oldest first and none at 0.
    queue: VecDeque<u128>,
}

impl Buffer {
    /// A packet at a tick that is not before now.
    fn arrive(&mut self, tick: u64) {
        self.drain(u128::from(tick) - self.now);
        if self.queue.is_empty() {
            self.since = self.now;
        }
        self.queue.push_back(u128::from(PACKET_TICKS));
    }

    /// Lets time go on: each tick takes a 108th from the front, and ticks that find nothing there are lost.
    fn drain(&mut self, mut ticks: u128) {
        self.now += ticks;
        while let Some(front) = self.queue.front_mut() {
            if *front > ticks {
                *front -= ticks;
                return;
            }
            ticks -= *front;
            self.queue.pop_front();
        }
    }

    /// Whether more is in the queue than the buffer has room for.
    fn overrun(&self) -> bool {
        self.queue.iter().sum::<u128>() > u128::from(ROOM_TICKS)
    }

    /// Whether the last byte goes more than a second after the packet that found the buffer empty.
    fn lingering(&self) -> bool {
        let mut later = self.clone();
        while let Some(front) = later.queue.front().copied() {
            later.drain(front);
        }
        later.now - later.since > u128::from(TICKS_A_SECOND)
    }
}
