//! Answers 403 where a request has no x-key header, or another one than the plug-in's configuration says. Without a
//! configuration any key will do.
#![no_std]

mod bare;
use bare::{buffer, header, send_local_response, Action, Buffer, Map};

/// Whether the request may pass.
fn is_allowed() -> bool {
    match (header(Map::RequestHeaders, b"x-key"), buffer(Buffer::PluginConfiguration, 0, 65_536)) {
        (Ok(key), Ok(wanted)) => wanted.is_empty() || key.as_slice() == wanted.as_slice(),
        _ => false,
    }
}

#[no_mangle]
pub extern "C" fn proxy_on_request_headers(_context: u32, _headers: u32, _end: u32) -> Action {
    if is_allowed() {
        return Action::Continue;
    }
    // Where the exchange takes no answer, the request is held all the same.
    let _ = send_local_response(403, b"a key is wanted\n");
    Action::Pause
}
