//! CRC_A (document 01, "Frames on the air").
//!
//! Polynomial x^16 + x^12 + x^5 + 1, start 6363, least significant bit first, not inverted, low byte sent first.
//! With the least significant bit first the register runs mirrored, so the polynomial 1021 is written 8408.

pub fn crc_a(bytes: &[u8]) -> [u8; 2] {
    let mut register: u16 = 0x6363;
    for &byte in bytes {
        for bit in 0..8 {
            let incoming = (byte as u16 >> bit) & 1;
            let feedback = (register & 1) ^ incoming;
            register >>= 1;
            if feedback == 1 {
                register ^= 0x8408;
            }
        }
    }
    [(register & 0xFF) as u8, (register >> 8) as u8]
}

/// The bytes with their CRC_A behind them.
pub fn with_crc(bytes: &[u8]) -> Vec<u8> {
    let mut all = bytes.to_vec();
    all.extend_from_slice(&crc_a(bytes));
    all
}

#[cfg(test)]
mod tests {
    use super::*;
    use crate::known::CRCS;
    use crate::language::hex;

    #[test]
    fn known_values() {
        for (data, crc) in CRCS {
            assert_eq!(crc_a(&hex(data)).to_vec(), hex(crc), "{data}");
        }
    }

    #[test]
    fn over_data_and_crc_the_register_is_zero() {
        for (data, _) in CRCS {
            assert_eq!(crc_a(&with_crc(&hex(data))), [0, 0]);
        }
    }
}
