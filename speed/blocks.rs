// The block protocol in plain Rust, as far as one message each way needs it where nothing is lost: I blocks, chained ones, and R(ACK). Both ends
// write their blocks as frames with parity and CRC_A and read them back from rows; what an end does not await is an error.
use crate::frames::{read_crc, write_crc, Refusal, MOST, ROW};

const PAYLOAD: usize = MOST - 3;
const I: u8 = 0x02;
const CHAINED: u8 = 0x10;
const ACK: u8 = 0xA2;

// Block numbers: of the reader, and of the card. They outlast a message.
pub struct Link {
    reader: u8,
    card: u8,
}

impl Link {
    pub fn new() -> Link {
        Link { reader: 0, card: 1 }
    }
}

// What is on its way: a row and the bytes that it was read to.
struct Air {
    row: [u8; ROW],
    bits: usize,
    bytes: [u8; MOST],
}

impl Air {
    fn send(&mut self, block: &[u8], seen: &mut impl FnMut(&[u8])) -> Result<(), Refusal> {
        self.bits = write_crc(block, &mut self.row)?;
        seen(&self.row[..self.bits]);
        Ok(())
    }

    fn send_i(&mut self, number: u8, part: &[u8], more: bool, seen: &mut impl FnMut(&[u8])) -> Result<(), Refusal> {
        let mut block = [0; PAYLOAD + 1];
        block[0] = I | number | if more { CHAINED } else { 0 };
        block[1..part.len() + 1].copy_from_slice(part);
        self.send(&block[..part.len() + 1], seen)
    }

    // An I block of this number: its payload, and whether more follow.
    fn hear_i(&mut self, number: u8) -> Result<(&[u8], bool), Refusal> {
        let n = read_crc(&self.row[..self.bits], &mut self.bytes)?;
        match self.bytes[0] {
            b if b == I | number => Ok((&self.bytes[1..n], false)),
            b if b == I | number | CHAINED => Ok((&self.bytes[1..n], true)),
            _ => Err(Refusal::Forbidden),
        }
    }

    fn hear_ack(&mut self, number: u8) -> Result<(), Refusal> {
        match (read_crc(&self.row[..self.bits], &mut self.bytes)?, self.bytes[0]) {
            (1, b) if b == ACK | number => Ok(()),
            _ => Err(Refusal::Forbidden),
        }
    }
}

// A payload joined behind those before it.
fn join(part: &[u8], buffer: &mut [u8], joined: &mut usize) -> Result<(), Refusal> {
    buffer.get_mut(*joined..*joined + part.len()).ok_or(Refusal::Room)?.copy_from_slice(part);
    *joined += part.len();
    Ok(())
}

// A message to the card and its answer to the reader, each joined in a buffer; neither is empty. Every row that is sent is shown to `seen`.
pub fn exchange(
    link: &mut Link,
    message: &[u8],
    answer: &[u8],
    at_card: &mut [u8],
    at_reader: &mut [u8],
    seen: &mut impl FnMut(&[u8]),
) -> Result<(usize, usize), Refusal> {
    let mut air = Air { row: [0; ROW], bits: 0, bytes: [0; MOST] };
    let (mut taken, mut got) = (0, 0);
    let last = message.len().div_ceil(PAYLOAD) - 1;
    for (i, part) in message.chunks(PAYLOAD).enumerate() {
        air.send_i(link.reader, part, i < last, seen)?;
        link.card ^= 1;
        let (part, more) = air.hear_i(link.card)?;
        join(part, at_card, &mut taken)?;
        if more {
            air.send(&[ACK | link.card], seen)?;
            air.hear_ack(link.reader)?;
            link.reader ^= 1;
        }
    }
    let last = answer.len().div_ceil(PAYLOAD) - 1;
    for (i, part) in answer.chunks(PAYLOAD).enumerate() {
        air.send_i(link.card, part, i < last, seen)?;
        let (part, more) = air.hear_i(link.reader)?;
        join(part, at_reader, &mut got)?;
        link.reader ^= 1;
        if more {
            air.send(&[ACK | link.reader], seen)?;
            link.card ^= 1;
            air.hear_ack(link.card)?;
        }
    }
    Ok((taken, got))
}
