//! Packets that generators put together: right ones are read, and each fault is refused with its number.

use crate::generate::packets::{packet_around, spoil, Head, FAULTS};
use crate::generate::random::Random;
use crate::refusal_numbers::Refusal;
use crate::the_packet::read_packet;

/// The refusals of faults in the order of a packet read alone.
const ORDER: [usize; 7] = [2, 4, 5, 6, 7, 8, 36];

fn whole(random: &mut Random) -> Vec<u8> {
    let room = random.below(185);
    let payload = random.bytes(room);
    packet_around(random, Head::new(256, false, 0), &payload)
}

#[test]
fn fields_that_fit_are_read() {
    let random = &mut Random::new(1);
    let mut told = [0; 8];
    for _ in 0..10_000 {
        let reading = read_packet(&whole(random)).unwrap();
        let field = reading.adaptation.unwrap_or_default();
        if field.extension.is_some() {
            let window = usize::from(field.window.is_some());
            let rate = usize::from(field.rate.is_some());
            let splice = usize::from(field.splice.is_some());
            told[4 * window + 2 * rate + splice] += 1;
        }
    }
    assert!(told.iter().all(|count| *count > 50), "{:?}", told);
}

#[test]
fn the_first_of_some_faults_is_refused() {
    let random = &mut Random::new(2);
    for _ in 0..50 {
        for faults in 0..1 << FAULTS.len() {
            let chosen = |fault: usize| {
                let place = FAULTS.iter().position(|known| *known == fault);
                faults >> place.unwrap() & 1 == 1
            };
            let mut packet = whole(random);
            for fault in FAULTS {
                if chosen(fault) {
                    spoil(random, &mut packet, fault);
                }
            }
            let first = ORDER.iter().find(|fault| chosen(**fault));
            let refused = read_packet(&packet).err();
            assert_eq!(refused, first.map(|fault| Refusal(*fault as u32)));
        }
    }
}
