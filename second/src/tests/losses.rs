//! How long a loss is felt: made runs, each beside the run in which earlier packets of a PID never came.

use super::driver::UNSET;
use crate::filters_and_areas::{close, open};
use crate::from_payload_to_sections::{packet_call, Answer, Wanted};
use crate::generate::random::Random;
use crate::refusal_numbers::Refusal;
use crate::state::{Area, Choice, State};

const PIDS: [u16; 3] = [0, 5, 0x100];

#[derive(Clone)]
enum Call {
    Open(u16, Choice),
    Close(u16),
    Packet(Vec<u8>),
}

/// An answer, with every byte of the output and every place of the list after it.
#[derive(Debug, PartialEq)]
enum Heard {
    Opened(Result<(u16, usize), Refusal>),
    Closed(Result<(), Refusal>),
    Handled(Result<Answer, Refusal>, Vec<u8>, Vec<u32>),
}

#[derive(Clone)]
struct World {
    state: State,
    store: Vec<u8>,
}

impl World {
    /// A fresh state and a store of this byte.
    fn new(byte: u8) -> World {
        World {
            state: State::fresh(),
            store: vec![byte; 32_768],
        }
    }

    fn call(&mut self, call: &Call) -> Heard {
        match call {
            Call::Open(pid, choice) => Heard::Opened(open(&mut self.state, *pid, *choice)),
            Call::Close(number) => Heard::Closed(close(&mut self.state, *number)),
            Call::Packet(packet) => {
                let (mut output, mut list) = (vec![0x66; 4_278], vec![UNSET; 61]);
                let World { state, store } = self;
                let answer = packet_call(state, store, &mut output, &mut list, packet);
                Heard::Handled(answer, output, list)
            }
        }
    }

    fn run(mut self, calls: &[Call]) -> World {
        for call in calls {
            self.call(call);
        }
        self
    }

    /// The state in which the area of a PID has seen nothing.
    fn anew(&self, pid: u16) -> State {
        let mut state = self.state.clone();
        if let Some(area) = state.area_of(pid) {
            let Area { pid, users, .. } = state.areas[area];
            state.areas[area] = Area {
                pid,
                users,
                ..Area::default()
            };
        }
        state
    }
}

fn pid_of(packet: &[u8]) -> u16 {
    u16::from(packet[1] % 32) * 256 + u16::from(packet[2])
}

fn is_of(call: &Call, pid: u16) -> bool {
    matches!(call, Call::Packet(packet) if pid_of(packet) == pid)
}

/// A packet that starts a section, goes on, has no payload or is scrambled.
fn made_packet(random: &mut Random, pid: u16, counter: u8) -> Vec<u8> {
    let start = random.one_in(2);
    let control = random.pick(&[0x10, 0x10, 0x10, 0x10, 0x10, 0x10, 0x10, 0x20, 0x90]);
    let [high, low] = pid.to_be_bytes();
    let mut packet = vec![0x47, 64 * u8::from(start) + high, low, control + counter];
    if control == 0x20 {
        packet.extend([183, 0]);
    } else if start {
        let pointer = random.pick(&[0, 0, 7]);
        packet.push(pointer);
        packet.resize(5 + usize::from(pointer), 0x2A);
        for table in 0x80..0x80 + random.between(1, 3) as u8 {
            let size = random.pick(&[0, 3, 100, 250]);
            packet.extend([table, 0x30, size]);
            packet.resize(packet.len() + usize::from(size), 0x2B);
        }
    } else {
        packet.resize(4 + random.between(1, 184), 0x2C);
    }
    packet.resize(188, 0xFF);
    packet
}

/// Opens, closes and packets, whose counters go on, stand still or skip.
fn made_calls(random: &mut Random) -> Vec<Call> {
    let mut counters = [0u8; 3];
    let mut calls: Vec<Call> = PIDS.map(|pid| Call::Open(pid, Choice::All)).to_vec();
    for _ in 0..60 {
        let index = random.below(3);
        let choice = random.pick(&[Choice::All, Choice::One(0x81), Choice::One(255)]);
        calls.push(match random.below(12) {
            0 => Call::Open(PIDS[index], choice),
            1 => Call::Close(random.between(1, 9) as u16),
            _ => {
                let step = random.pick(&[0, 1, 1, 1, 1, 1, 7]);
                counters[index] = (counters[index] + step) % 16;
                Call::Packet(made_packet(random, PIDS[index], counters[index]))
            }
        });
    }
    calls
}

fn heard_later(world: &World, calls: &[Call]) -> Vec<Heard> {
    let mut world = world.clone();
    calls.iter().map(|call| world.call(call)).collect()
}

fn wanted(heard: &Heard) -> Option<Wanted> {
    match heard {
        Heard::Handled(Ok(Answer::Wanted(wanted)), _, _) => Some(*wanted),
        _ => None,
    }
}

/// Holds a call that jumps, and all after it, to the run without the earlier packets of its PID.
fn jump_is_as_new(calls: &[Call], at: usize, pid: u16, before: &World) {
    let others: Vec<Call> = calls[..at]
        .iter()
        .filter(|call| !is_of(call, pid))
        .cloned()
        .collect();
    let mut fresh = World::new(0xAA).run(&others);
    assert_eq!(fresh.state, before.anew(pid));
    let mut world = before.clone();
    let area = world.state.area_of(pid).expect("it is wanted");
    let lost = u32::from(world.state.areas[area].held > 0);
    let mut heard = world.call(&calls[at]);
    if let Heard::Handled(Ok(Answer::Wanted(told)), _, _) = &mut heard {
        told.jump = false;
        told.given_up -= lost;
    }
    assert_eq!(fresh.call(&calls[at]), heard);
    assert_eq!(fresh.state, world.state);
    let later = &calls[at + 1..];
    assert_eq!(heard_later(&fresh, later), heard_later(&world, later));
}

#[test]
fn from_a_jump_on_all_is_as_new() {
    let (mut jumps, mut given_up) = (0, 0);
    for seed in 0..200 {
        let calls = made_calls(&mut Random::new(seed));
        let mut world = World::new(0x55);
        for (at, call) in calls.iter().enumerate() {
            let before = world.clone();
            let told = wanted(&world.call(call)).unwrap_or_default();
            if let (Call::Packet(packet), true) = (call, told.jump) {
                jump_is_as_new(&calls, at, pid_of(packet), &before);
                jumps += 1;
                given_up += u32::from(told.given_up > 0);
            }
        }
    }
    assert!(jumps > 500 && given_up > 100);
}

#[test]
fn from_a_start_on_a_loss_is_forgotten() {
    let mut joined = 0;
    for seed in 0..200 {
        let mut random = Random::new(seed);
        let calls = made_calls(&mut random);
        let (mut all, mut some) = (World::new(0x55), World::new(0xAA));
        for (at, call) in calls.iter().enumerate() {
            let before = all.clone();
            let whole = all.call(call);
            if is_of(call, 0) && random.one_in(3) {
                continue;
            }
            let part = some.call(call);
            let taken = |heard| wanted(heard).map_or(false, |told| !told.repeat);
            if starts(call) && is_of(call, 0) && taken(&whole) && taken(&part) {
                assert_eq!(all.state, some.state);
                let later = &calls[at + 1..];
                assert_eq!(heard_later(&all, later), heard_later(&some, later));
                joined += usize::from(before.anew(0) != before.state);
            }
        }
    }
    assert!(joined > 200);
}

/// Whether the call is a packet with unit start and a payload.
fn starts(call: &Call) -> bool {
    matches!(call, Call::Packet(packet) if packet[1] / 64 % 2 == 1 && packet[3] / 16 % 2 == 1)
}
