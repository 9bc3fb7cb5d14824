//! Little-endian numbers inside a line or a checkpoint.

pub fn u16_at(bytes: &[u8], place: usize) -> u16 {
    u16::from(bytes[place]) | u16::from(bytes[place + 1]) << 8
}

pub fn u32_at(bytes: &[u8], place: usize) -> u32 {
    u32::from(u16_at(bytes, place)) | u32::from(u16_at(bytes, place + 2)) << 16
}

pub fn u64_at(bytes: &[u8], place: usize) -> u64 {
    u64::from(u32_at(bytes, place)) | u64::from(u32_at(bytes, place + 4)) << 32
}

/// "Bytes and flag bits not named are zero."
pub fn all_zero(bytes: &[u8]) -> bool {
    bytes.iter().all(|&byte| byte == 0)
}
