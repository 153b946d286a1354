//! For connections that are streams of bytes: passes a connection whose first bytes are the first record of TLS, a handshake that begins with ClientHello,
//! and closes every other one. Until then nothing of the client goes to the server, and nothing of the server to the client.
#![no_std]

mod bare;
use bare::{buffer, close_stream, continue_stream, property, set_property, Action, Buffer, Stream};

/// A record's type, version and length, and the type of its handshake message (RFC 8446, sections 4 and 5.1).
const HEAD: usize = 6;

/// Whether bytes may be the first of such a record.
fn is_tls(bytes: &[u8]) -> bool {
    let wanted = [22..=22, 3..=3, 0..=4, 0..=64, 0..=255, 1..=1];
    let length = match bytes {
        [_, _, _, high, low, ..] => u16::from_be_bytes([*high, *low]),
        _ => 4,
    };
    bytes.iter().zip(wanted).all(|(byte, wanted)| wanted.contains(byte)) && (4..=16_384).contains(&length)
}

/// Whether the connection was passed. That is a property of its context.
fn is_passed() -> bool {
    property(b"tls").is_ok()
}

#[no_mangle]
pub extern "C" fn proxy_on_downstream_data(_context: u32, _size: usize, end: u32) -> Action {
    if is_passed() {
        return Action::Continue;
    }
    match buffer(Buffer::DownstreamData, 0, HEAD) {
        Ok(bytes) if is_tls(bytes.as_slice()) && (bytes.len() == HEAD || end == 0) => {
            if bytes.len() < HEAD {
                return Action::Pause;
            }
            let _ = set_property(b"tls", b"1");
            let _ = continue_stream(Stream::Upstream);
            Action::Continue
        }
        _ => {
            let _ = close_stream(Stream::Downstream);
            Action::Pause
        }
    }
}

#[no_mangle]
pub extern "C" fn proxy_on_upstream_data(_context: u32, _size: usize, _end: u32) -> Action {
    if is_passed() {
        Action::Continue
    } else {
        Action::Pause
    }
}
