// Document 01's LEADER frame with Paper 5 of document 02 once more, in plain Rust: 10 hex, the sender, n, then n counts
// of two bytes, low byte first. And Paper 6's frame of clock heads: 11 hex, the sender, then the stamp, four bytes, low
// byte first.

/// Writes the frame at the front of the buffer and answers its length, or the refusal with the buffer as it was.
pub fn write_frame(n: u64, sender: u64, vector: &[u64], buffer: &mut [u8]) -> Result<usize, u64> {
    if n < 2 || n > 8 {
        return Err(5);
    }
    if vector.len() as u64 != n {
        return Err(17);
    }
    if sender < 1 || sender > n {
        return Err(19);
    }
    if vector.iter().any(|&count| count > 4095) || vector[sender as usize - 1] == 0 {
        return Err(20);
    }
    let mut frame = vec![0x10, sender as u8, n as u8];
    for count in vector {
        frame.push((count % 256) as u8);
        frame.push((count / 256) as u8);
    }
    if buffer.len() < frame.len() {
        return Err(16);
    }
    buffer[..frame.len()].copy_from_slice(&frame);
    Ok(frame.len())
}

/// Reads a frame where there are n stations: the sender and the vector, or the refusal.
pub fn read_frame(n: u64, bytes: &[u8]) -> Result<(u64, Vec<u64>), u64> {
    if n < 2 || n > 8 {
        return Err(5);
    }
    if bytes.len() as u64 != 3 + 2 * n {
        return Err(17);
    }
    if bytes[0] != 0x10 {
        return Err(18);
    }
    if bytes[2] as u64 != n {
        return Err(24); // paper 5
    }
    let sender = bytes[1] as u64;
    if sender < 1 || sender > n {
        return Err(19);
    }
    let vector: Vec<u64> = bytes[3..].chunks(2).map(|c| c[0] as u64 + 256 * c[1] as u64).collect();
    if vector.iter().any(|&count| count > 4095) || vector[sender as usize - 1] == 0 {
        return Err(20);
    }
    Ok((sender, vector))
}

/// Writes a clock frame at the front of the buffer and answers its length, or the refusal with the buffer as it was.
pub fn write_clock_frame(n: u64, sender: u64, stamp: u32, buffer: &mut [u8]) -> Result<usize, u64> {
    if n < 2 || n > 8 {
        return Err(5);
    }
    if sender < 1 || sender > n {
        return Err(19);
    }
    if buffer.len() < 6 {
        return Err(16);
    }
    buffer[0] = 0x11;
    buffer[1] = sender as u8;
    let mut rest = stamp;
    for byte in &mut buffer[2..6] {
        *byte = (rest % 256) as u8;
        rest /= 256;
    }
    Ok(6)
}

/// Reads a clock frame where there are n stations: the sender and the stamp, or the refusal.
pub fn read_clock_frame(n: u64, bytes: &[u8]) -> Result<(u64, u32), u64> {
    if n < 2 || n > 8 {
        return Err(5);
    }
    if bytes.len() != 6 {
        return Err(17);
    }
    if bytes[0] != 0x11 {
        return Err(18);
    }
    let sender = bytes[1] as u64;
    if sender < 1 || sender > n {
        return Err(19);
    }
    let stamp = bytes[2..].iter().rev().fold(0, |high, &byte| 256 * high + byte as u32);
    Ok((sender, stamp))
}
