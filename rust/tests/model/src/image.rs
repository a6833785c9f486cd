//! Memory images: the reader and the writer.

use crate::{Told, MEMORY_WORDS};

const LAST_ADDRESS: u16 = 4091;
const LEAST_ROOM: usize = 16368;

/// Reads an image and gives the answer number.
pub fn read(image: &[u8], memory: &mut [u16]) -> u32 {
    if memory.len() != MEMORY_WORDS {
        return 1;
    }
    if image.len() % 4 != 0 {
        return 20;
    }
    let mut address_before = None;
    for record in image.chunks(4) {
        let (address, value) = address_and_value(record);
        if address > LAST_ADDRESS {
            return 21;
        }
        if address_before.is_some_and(|before| address <= before) {
            return 22;
        }
        if value == 0 {
            return 23;
        }
        address_before = Some(address);
    }
    memory.fill(0);
    for record in image.chunks(4) {
        let (address, value) = address_and_value(record);
        memory[usize::from(address)] = value;
    }
    0
}

fn address_and_value(record: &[u8]) -> (u16, u16) {
    (u16::from_be_bytes([record[0], record[1]]), u16::from_be_bytes([record[2], record[3]]))
}

/// Writes the image of a memory at the start of the room.
pub fn write(memory: &[u16], room: &mut [u8]) -> Told {
    if memory.len() != MEMORY_WORDS {
        return Told::answer(1);
    }
    if room.len() < LEAST_ROOM {
        return Told::answer(24);
    }
    let mut length = 0;
    for address in 0..=LAST_ADDRESS {
        let value = memory[usize::from(address)];
        if value != 0 {
            room[length..length + 2].copy_from_slice(&address.to_be_bytes());
            room[length + 2..length + 4].copy_from_slice(&value.to_be_bytes());
            length += 4;
        }
    }
    Told { answer: 0, done: length as u64, extra: 0 }
}
