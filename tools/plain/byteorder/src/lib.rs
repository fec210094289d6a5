//! Stands in for byteorder: numbers at the front of a list of bytes.

/// In which order a number's bytes stand.
pub trait ByteOrder {
    fn read_u16(bytes: &[u8]) -> u16;
    fn read_u32(bytes: &[u8]) -> u32;
    fn read_u48(bytes: &[u8]) -> u64;
    fn read_u64(bytes: &[u8]) -> u64;
    fn write_u16(bytes: &mut [u8], number: u16);
    fn write_u32(bytes: &mut [u8], number: u32);
    fn write_u64(bytes: &mut [u8], number: u64);

    fn write_u32_into(numbers: &[u32], bytes: &mut [u8]) {
        for (at, number) in numbers.iter().enumerate() {
            Self::write_u32(&mut bytes[4 * at..], *number);
        }
    }
}

/// The highest byte first.
pub struct BigEndian;

/// The lowest byte first.
pub struct LittleEndian;

fn front<const N: usize>(bytes: &[u8]) -> [u8; N] {
    bytes[..N].try_into().unwrap()
}

impl ByteOrder for BigEndian {
    fn read_u16(bytes: &[u8]) -> u16 {
        u16::from_be_bytes(front(bytes))
    }

    fn read_u32(bytes: &[u8]) -> u32 {
        u32::from_be_bytes(front(bytes))
    }

    fn read_u48(bytes: &[u8]) -> u64 {
        bytes[..6].iter().fold(0, |number, byte| number << 8 | u64::from(*byte))
    }

    fn read_u64(bytes: &[u8]) -> u64 {
        u64::from_be_bytes(front(bytes))
    }

    fn write_u16(bytes: &mut [u8], number: u16) {
        bytes[..2].copy_from_slice(&number.to_be_bytes());
    }

    fn write_u32(bytes: &mut [u8], number: u32) {
        bytes[..4].copy_from_slice(&number.to_be_bytes());
    }

    fn write_u64(bytes: &mut [u8], number: u64) {
        bytes[..8].copy_from_slice(&number.to_be_bytes());
    }
}

impl ByteOrder for LittleEndian {
    fn read_u16(bytes: &[u8]) -> u16 {
        u16::from_le_bytes(front(bytes))
    }

    fn read_u32(bytes: &[u8]) -> u32 {
        u32::from_le_bytes(front(bytes))
    }

    fn read_u48(bytes: &[u8]) -> u64 {
        bytes[..6].iter().rev().fold(0, |number, byte| number << 8 | u64::from(*byte))
    }

    fn read_u64(bytes: &[u8]) -> u64 {
        u64::from_le_bytes(front(bytes))
    }

    fn write_u16(bytes: &mut [u8], number: u16) {
        bytes[..2].copy_from_slice(&number.to_le_bytes());
    }

    fn write_u32(bytes: &mut [u8], number: u32) {
        bytes[..4].copy_from_slice(&number.to_le_bytes());
    }

    fn write_u64(bytes: &mut [u8], number: u64) {
        bytes[..8].copy_from_slice(&number.to_le_bytes());
    }
}

#[cfg(test)]
mod tests {
    use super::*;

    const BYTES: [u8; 9] = [1, 2, 3, 4, 5, 6, 7, 8, 9];

    #[test]
    fn the_highest_byte_comes_first_or_last() {
        assert_eq!((BigEndian::read_u16(&BYTES), LittleEndian::read_u16(&BYTES)), (0x0102, 0x0201));
        assert_eq!((BigEndian::read_u32(&BYTES), LittleEndian::read_u32(&BYTES)), (0x0102_0304, 0x0403_0201));
        assert_eq!(BigEndian::read_u48(&BYTES), 0x0102_0304_0506);
        assert_eq!(LittleEndian::read_u48(&BYTES), 0x0605_0403_0201);
        assert_eq!(BigEndian::read_u64(&BYTES), 0x0102_0304_0506_0708);
        assert_eq!(LittleEndian::read_u64(&BYTES), 0x0807_0605_0403_0201);
    }

    #[test]
    fn what_is_written_is_read_and_the_rest_stays() {
        let mut bytes = [0xff; 9];
        BigEndian::write_u64(&mut bytes, 0x0102_0304_0506_0708);
        assert_eq!(bytes, [1, 2, 3, 4, 5, 6, 7, 8, 0xff]);
        LittleEndian::write_u32(&mut bytes, 0x0102_0304);
        assert_eq!(bytes, [4, 3, 2, 1, 5, 6, 7, 8, 0xff]);
        BigEndian::write_u16(&mut bytes, 0x0102);
        assert_eq!(bytes, [1, 2, 2, 1, 5, 6, 7, 8, 0xff]);
        LittleEndian::write_u64(&mut bytes, 1);
        BigEndian::write_u32(&mut bytes[4..], 1);
        LittleEndian::write_u16(&mut bytes[7..], 1);
        assert_eq!(bytes, [1, 0, 0, 0, 0, 0, 0, 1, 0]);
    }
}
