//! Numbers in groups of seven bits, and numbers in decimal.

/// Reads one number at `place`: the number and the next place, or 21, 22 or 23.
#[inline(always)]
pub fn read(bytes: &[u8], place: usize) -> Result<(u64, usize), u8> {
    // Most numbers of a script are one byte.
    match bytes.get(place) {
        Some(&byte) if byte < 0x80 => Ok((u64::from(byte), place + 1)),
        _ => read_long(bytes, place),
    }
}

fn read_long(bytes: &[u8], place: usize) -> Result<(u64, usize), u8> {
    let mut value = 0;
    let mut shift = 0;
    let mut place = place;
    loop {
        let Some(&byte) = bytes.get(place) else {
            return Err(21);
        };
        place += 1;
        // A tenth byte holds the one bit that is left.
        if shift == 63 && byte > 1 {
            return Err(23);
        }
        value |= u64::from(byte & 0x7F) << shift;
        if byte < 0x80 {
            // A last byte of zero after others is not the fewest bytes.
            return if byte == 0 && shift > 0 { Err(22) } else { Ok((value, place)) };
        }
        shift += 7;
    }
}

/// Writes a number, lowest group first, in the fewest bytes.
pub fn write(out: &mut Vec<u8>, mut value: u64) {
    while value > 0x7F {
        out.push(value as u8 | 0x80);
        value >>= 7;
    }
    out.push(value as u8);
}

/// Prints a number in decimal.
#[inline]
pub fn decimal(out: &mut Vec<u8>, mut value: u64) {
    if value < 10 {
        return out.push(b'0' + value as u8);
    }
    let mut digits = [0; 20];
    let mut at = digits.len();
    loop {
        at -= 1;
        digits[at] = b'0' + (value % 10) as u8;
        value /= 10;
        if value == 0 {
            break;
        }
    }
    out.extend_from_slice(&digits[at..]);
}
