//! Adds a header to each request, and one to each response.
#![no_std]

mod bare;
use bare::{add_header, Action, Map};

#[no_mangle]
pub extern "C" fn proxy_on_request_headers(_context: u32, _headers: u32, _end: u32) -> Action {
    // A head that has no place for one more field goes on without it.
    let _ = add_header(Map::RequestHeaders, b"x-filtered", b"yes");
    Action::Continue
}

#[no_mangle]
pub extern "C" fn proxy_on_response_headers(_context: u32, _headers: u32, _end: u32) -> Action {
    let _ = add_header(Map::ResponseHeaders, b"x-served-by", b"wasmgate");
    Action::Continue
}
