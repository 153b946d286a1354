//! For connections that are streams of bytes: counts them and their bytes in metrics, and closes a connection whose peers sent more bytes than the plug-in's
//! configuration says, as a decimal number. Without a configuration none is closed.
#![no_std]

mod bare;
use bare::{buffer, close_stream, define_metric, increment_metric, property, set_property, Action, Buffer, Metric, Status, Stream};

fn add(metric: &[u8], count: usize) -> Result<(), Status> {
    increment_metric(define_metric(Metric::Counter, metric)?, count as i64)
}

/// How many bytes the connection may still bring, where there is a limit. It is a property of the connection's context.
fn left() -> Option<u64> {
    let kept = property(b"left").ok()?;
    Some(u64::from_le_bytes(kept.as_slice().try_into().ok()?))
}

fn set_left(left: u64) {
    let _ = set_property(b"left", &left.to_le_bytes());
}

/// The limit of the plug-in's configuration: its digits, 19 at most.
fn limit() -> Option<u64> {
    let text = buffer(Buffer::PluginConfiguration, 0, 19).ok()?;
    if text.is_empty() {
        return None;
    }
    let digits = text.as_slice().iter().take_while(|byte| byte.is_ascii_digit());
    Some(digits.fold(0, |limit: u64, byte| limit.wrapping_mul(10).wrapping_add(u64::from(byte - b'0'))))
}

/// Bytes came. Those with which a connection brings too many are not passed on: the close comes before the answer.
fn came(metric: &[u8], count: usize) -> Action {
    let _ = add(metric, count);
    match left() {
        None => Action::Continue,
        Some(left) if count as u64 <= left => {
            set_left(left - count as u64);
            Action::Continue
        }
        Some(_) => {
            let _ = add(b"closed", 1);
            let _ = close_stream(Stream::Downstream);
            Action::Pause
        }
    }
}

#[no_mangle]
pub extern "C" fn proxy_on_new_connection(_context: u32) -> Action {
    let _ = add(b"connections", 1);
    if let Some(limit) = limit() {
        set_left(limit);
    }
    Action::Continue
}

#[no_mangle]
pub extern "C" fn proxy_on_downstream_data(_context: u32, size: usize, _end: u32) -> Action {
    came(b"bytes_from_clients", size)
}

#[no_mangle]
pub extern "C" fn proxy_on_upstream_data(_context: u32, size: usize, _end: u32) -> Action {
    came(b"bytes_from_servers", size)
}
