//! The bytes: TLVs and rows of them, good node data, groups of seven bits,
//! folded amounts, payments, and the order of sequence numbers.

use crate::sha256::Digest;

/// Most bytes of node data of one node.
pub const MAX_DATA: usize = 1_024;

pub const REQUEST_NETWORK_STATE: u16 = 1;
pub const REQUEST_NODE_STATE: u16 = 2;
pub const NODE_ENDPOINT: u16 = 3;
pub const NETWORK_STATE: u16 = 4;
pub const NODE_STATE: u16 = 5;
pub const PEER: u16 = 8;
pub const KEEP_ALIVE: u16 = 9;
pub const PAYMENT: u16 = 40;

/// Bytes of a Node State value before its data.
pub const NODE_STATE_FIXED: usize = 28;

/// One TLV as it stands in a row of TLVs.
#[derive(Clone, Copy, Debug, PartialEq, Eq)]
pub struct Tlv<'a> {
    pub kind: u16,
    pub value: &'a [u8],
    /// Header, value and padding.
    pub whole: &'a [u8],
}

/// The TLVs of a row, or nothing if the bytes are not a row of whole TLVs with zero padding.
pub fn row(bytes: &[u8]) -> Option<Vec<Tlv<'_>>> {
    let mut tlvs = Vec::new();
    let mut rest = bytes;
    while !rest.is_empty() {
        let tlv = first_tlv(rest)?;
        rest = &rest[tlv.whole.len()..];
        tlvs.push(tlv);
    }
    Some(tlvs)
}

/// The whole TLV at the start of the bytes. The padding is part of it.
fn first_tlv(bytes: &[u8]) -> Option<Tlv<'_>> {
    let header = bytes.get(..4)?;
    let kind = u16::from_be_bytes([header[0], header[1]]);
    let length = usize::from(u16::from_be_bytes([header[2], header[3]]));
    let end = 4 + length;
    let padded_end = end.next_multiple_of(4);
    let whole = bytes.get(..padded_end)?;
    let padding_is_zero = whole[end..].iter().all(|&byte| byte == 0);
    padding_is_zero.then_some(Tlv {
        kind,
        value: &whole[4..end],
        whole,
    })
}

/// Good node data: at most 1,024 bytes, a row of whole TLVs with zero padding,
/// strictly ascending when whole TLVs are compared byte by byte.
pub fn good(data: &[u8]) -> bool {
    data.len() <= MAX_DATA
        && row(data).is_some_and(|tlvs| tlvs.windows(2).all(|pair| pair[0].whole < pair[1].whole))
}

/// The TLVs of data that is known to be good.
pub fn tlvs_of(data: &[u8]) -> Vec<Tlv<'_>> {
    row(data).unwrap_or_default()
}

/// Puts a whole TLV that is not there yet into good data, at its place in the order.
pub fn insert(data: &mut Vec<u8>, tlv: &[u8]) {
    let place: usize = tlvs_of(data)
        .iter()
        .take_while(|present| present.whole < tlv)
        .map(|present| present.whole.len())
        .sum();
    data.splice(place..place, tlv.iter().copied());
}

/// The data without the TLVs for which the test holds.
pub fn without(data: &[u8], drop: impl Fn(&Tlv) -> bool) -> Vec<u8> {
    let mut kept = Vec::new();
    for tlv in tlvs_of(data) {
        if !drop(&tlv) {
            kept.extend_from_slice(tlv.whole);
        }
    }
    kept
}

/// Whether this whole TLV stands in the data.
pub fn contains(data: &[u8], tlv: &[u8]) -> bool {
    tlvs_of(data).iter().any(|present| present.whole == tlv)
}

/// The bytes of a TLV: type, length, value, zeros to the next multiple of 4.
pub fn tlv(kind: u16, value: &[u8]) -> Vec<u8> {
    assert!(value.len() <= usize::from(u16::MAX));
    let mut bytes = Vec::with_capacity(8 + value.len());
    bytes.extend_from_slice(&kind.to_be_bytes());
    bytes.extend_from_slice(&(value.len() as u16).to_be_bytes());
    bytes.extend_from_slice(value);
    bytes.resize(bytes.len().next_multiple_of(4), 0);
    bytes
}

/// The big-endian 32-bit words in a row.
fn words(numbers: &[u32]) -> Vec<u8> {
    numbers
        .iter()
        .flat_map(|number| number.to_be_bytes())
        .collect()
}

/// The word number `index` of a value that is long enough.
pub fn word(value: &[u8], index: usize) -> u32 {
    let at = 4 * index;
    u32::from_be_bytes([value[at], value[at + 1], value[at + 2], value[at + 3]])
}

pub fn request_network_state_tlv() -> Vec<u8> {
    tlv(REQUEST_NETWORK_STATE, &[])
}

pub fn request_node_state_tlv(node: u32) -> Vec<u8> {
    tlv(REQUEST_NODE_STATE, &words(&[node]))
}

pub fn node_endpoint_tlv(node: u32, endpoint: u32) -> Vec<u8> {
    tlv(NODE_ENDPOINT, &words(&[node, endpoint]))
}

pub fn network_state_tlv(digest: &Digest) -> Vec<u8> {
    tlv(NETWORK_STATE, digest)
}

/// A Node State; `data` is empty for one without data.
pub fn node_state_tlv(node: u32, seq: u32, age: u32, digest: &Digest, data: &[u8]) -> Vec<u8> {
    let mut value = words(&[node, seq, age]);
    value.extend_from_slice(digest);
    value.extend_from_slice(data);
    tlv(NODE_STATE, &value)
}

pub fn peer_tlv(node: u32, theirs: u32, ours: u32) -> Vec<u8> {
    tlv(PEER, &words(&[node, theirs, ours]))
}

pub fn keep_alive_tlv(endpoint: u32, interval: u32) -> Vec<u8> {
    tlv(KEEP_ALIVE, &words(&[endpoint, interval]))
}

/// Sequence number a is older than b, on the circle of 2^32 numbers.
pub fn older(a: u32, b: u32) -> bool {
    a.wrapping_sub(b) >= 1 << 31
}

/// Appends a number in groups of seven bits, low group first,
/// the top bit set on all but the last group.
pub fn write_number(out: &mut Vec<u8>, number: u32) {
    let mut rest = number;
    while rest >= 0x80 {
        out.push((rest & 0x7f) as u8 | 0x80);
        rest >>= 7;
    }
    out.push(rest as u8);
}

/// Reads a number in groups from the front and moves past it.
/// Nothing for a number that is cut, not in the shortest form, or not below 2^32.
pub fn read_number(bytes: &mut &[u8]) -> Option<u32> {
    let mut number: u64 = 0;
    // Five groups hold 35 bits; a sixth could only be zero or make it too large.
    for index in 0..5 {
        let byte = *bytes.get(index)?;
        number |= u64::from(byte & 0x7f) << (7 * index);
        if byte < 0x80 {
            let shortest = index == 0 || byte != 0;
            *bytes = &bytes[index + 1..];
            return u32::try_from(number).ok().filter(|_| shortest);
        }
    }
    None
}

/// Folds a signed amount: 0, -1, 1, -2 become 0, 1, 2, 3.
pub fn fold(amount: i32) -> u32 {
    let amount = i64::from(amount);
    let folded = if amount < 0 {
        -2 * amount - 1
    } else {
        2 * amount
    };
    folded as u32
}

/// The amount whose folded number this is.
pub fn unfold(folded: u32) -> i32 {
    let half = (folded / 2) as i32;
    if folded.is_multiple_of(2) {
        half
    } else {
        -1 - half
    }
}

#[derive(Clone, Copy, Debug, PartialEq, Eq)]
pub struct Payment {
    pub household: u32,
    pub receipt: u32,
    pub amount: i32,
}

/// Households are numbered 1 to 9,999.
pub fn is_household(household: u32) -> bool {
    (1..=9_999).contains(&household)
}

pub fn payment_tlv(payment: &Payment) -> Vec<u8> {
    let mut value = Vec::new();
    write_number(&mut value, payment.household);
    write_number(&mut value, payment.receipt);
    write_number(&mut value, fold(payment.amount));
    tlv(PAYMENT, &value)
}

/// The payment in the value of a type 40 TLV, or nothing if it is unreadable.
pub fn read_payment(value: &[u8]) -> Option<Payment> {
    let mut rest = value;
    let household = read_number(&mut rest)?;
    let receipt = read_number(&mut rest)?;
    let amount = unfold(read_number(&mut rest)?);
    let readable = rest.is_empty() && is_household(household);
    readable.then_some(Payment {
        household,
        receipt,
        amount,
    })
}
