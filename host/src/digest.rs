//! The digest by itself, from the archive of the crate `sha256`.

// Each reads `length` bytes of the message and writes the digest.
extern "C" {
    fn pingvratha_sha256(message: *const u8, length: usize, digest: *mut [u8; 32]);
    fn pingvratha_hash16(message: *const u8, length: usize, digest: *mut [u8; 16]);
}

/// Writes the SHA-256 of the message.
pub fn digest(message: &[u8], digest: &mut [u8; 32]) {
    unsafe { pingvratha_sha256(message.as_ptr(), message.len(), digest) }
}

/// Writes the first 16 bytes of the SHA-256 of the message.
pub fn hash16(message: &[u8], digest: &mut [u8; 16]) {
    unsafe { pingvratha_hash16(message.as_ptr(), message.len(), digest) }
}

#[cfg(test)]
mod tests {
    use super::{digest, hash16};
    use reference::sha256::sha256;

    /// Blocks whole and cut, with room for the length in the last one and without.
    #[test]
    fn every_length_as_the_reference() {
        let message: Vec<u8> = (0..1_100u32).map(|i| (i * 7 + i / 256) as u8).collect();
        let (mut whole, mut front) = ([0; 32], [0; 16]);
        for length in 0..=message.len() {
            let message = &message[..length];
            digest(message, &mut whole);
            hash16(message, &mut front);
            assert_eq!(whole, sha256(message), "{length} bytes");
            assert_eq!(front, whole[..16], "{length} bytes");
        }
    }
}
