//! Transport parameters that are the handshake's own (RFC 9000, sections 7.3 and 18.2): they say
//! which connection IDs it used. The endpoint writes and reads all others.
use crate::frame::{put_prefixed, Reader};

const ORIGINAL_DESTINATION_CONNECTION_ID: u64 = 0x00;
const INITIAL_SOURCE_CONNECTION_ID: u64 = 0x0f;
const RETRY_SOURCE_CONNECTION_ID: u64 = 0x10;

/// Appends to an endpoint's transport parameters its first connection ID, and at a server where the
/// client's first packet went.
pub fn append(parameters: &mut Vec<u8>, own_id: &[u8], original: Option<&[u8]>) {
    put_prefixed(parameters, &[INITIAL_SOURCE_CONNECTION_ID], own_id);
    let original = original.into_iter();
    original.for_each(|id| put_prefixed(parameters, &[ORIGINAL_DESTINATION_CONNECTION_ID], id));
}

/// Whether a peer saw the connection IDs that were seen here: the source of its own first Initial
/// packet; and a server where the client's first packet went, and the source of a Retry, if one
/// came, of which a client says nothing.
pub fn agree(parameters: &[u8], peer: &[u8], first: Option<&[u8]>, retry: Option<&[u8]>) -> bool {
    let mut from = Reader(parameters);
    let next = || (!from.0.is_empty()).then(|| Some((from.varint()?, from.prefixed()?)));
    let told: Option<Vec<(u64, &[u8])>> = std::iter::from_fn(next).collect();
    let is_told = |name: u64, id: Option<&[u8]>| {
        let mut values = told.iter().flatten().filter(|(it, _)| *it == name).map(|(_, id)| *id);
        values.next() == id && values.next().is_none()
    };
    is_told(INITIAL_SOURCE_CONNECTION_ID, Some(peer))
        && is_told(ORIGINAL_DESTINATION_CONNECTION_ID, first)
        && is_told(RETRY_SOURCE_CONNECTION_ID, retry)
}
