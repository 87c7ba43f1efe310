//! SHA-256 against the vectors of FIPS 180-4 and its examples.

use reference::script::hex;
use reference::sha256::{digest, sha256};

#[test]
fn fips_vectors() {
    let two_blocks = b"abcdbcdecdefdefgefghfghighijhijkijkljklmklmnlmnomnopnopq";
    let long = b"abcdefghbcdefghicdefghijdefghijkefghijklfghijklmghijklmnhijklmnoijklmnopjklmnopqklmnopqrlmnopqrsmnopqrstnopqrstu";
    let million = vec![b'a'; 1_000_000];
    let vectors: [(&[u8], &str); 5] = [
        (
            b"",
            "e3b0c44298fc1c149afbf4c8996fb92427ae41e4649b934ca495991b7852b855",
        ),
        (
            b"abc",
            "ba7816bf8f01cfea414140de5dae2223b00361a396177a9cb410ff61f20015ad",
        ),
        (
            two_blocks,
            "248d6a61d20638b8e5c026930c3e6039a33ce45964ff2167f6ecedd419db06c1",
        ),
        (
            long,
            "cf5b16a778af8380036ce59e7b0492370b249b11e8f07a51afac45037afee9d1",
        ),
        (
            &million,
            "cdc76e5c9914fb9281a1c7e284d73e67f1809a48a497200e046d39ccc7112cd0",
        ),
    ];
    for (message, expected) in vectors {
        assert_eq!(hex(&sha256(message)), expected);
    }
}

/// Every length up to some blocks, so that each way of padding is met.
#[test]
fn all_lengths() {
    let mut hashes = Vec::new();
    for length in 0..300u32 {
        let message: Vec<u8> = (0..length).map(|i| (i * 7 + length) as u8).collect();
        hashes.extend(sha256(&message));
    }
    assert_eq!(
        hex(&sha256(&hashes)),
        "d5238871a46ac4a1a75ac3fb19d645b0b3b9e5f35f5f720e2b240d605c6b694e"
    );
}

#[test]
fn digest_is_the_first_half() {
    assert_eq!(digest(b"abc"), sha256(b"abc")[..16]);
}
