//! Asks the server, at /auth, whether a request may pass, and holds the request until it knows. A status from 200 to 299 lets it go on. Every other
//! one is answered 403, and so is a call without an answer within a second, or one that cannot be made.
//! What becomes of requests once this filter's VM has died is not decided here: that is `fail` in the configuration.
#![no_std]

mod bare;
use bare::{continue_stream, header, http_call, send_local_response, Action, Map, Pairs, Status, Stream};

const MILLISECONDS: u32 = 1000;

/// Asks for this request.
fn ask() -> Result<u32, Status> {
    let (path, host) = (header(Map::RequestHeaders, b":path")?, header(Map::RequestHeaders, b":authority")?);
    let key = header(Map::RequestHeaders, b"authorization");
    let list: [(&[u8], &[u8]); 5] = [
        (b":method", b"GET"),
        (b":path", b"/auth"),
        (b":authority", host.as_slice()),
        (b"x-path", path.as_slice()),
        (b"authorization", key.as_ref().map_or(&[], |key| key.as_slice())),
    ];
    let fields = Pairs::of(if key.is_ok() { &list } else { &list[..4] });
    http_call(&fields, &[], MILLISECONDS)
}

fn refuse() {
    // Where the exchange takes no answer, the request is held all the same.
    let _ = send_local_response(403, b"forbidden\n");
}

#[no_mangle]
pub extern "C" fn proxy_on_request_headers(_context: u32, _headers: u32, _end: u32) -> Action {
    if ask().is_err() {
        refuse();
    }
    Action::Pause
}

/// `headers` is 0 where no answer came. The context of the request that asked is the effective one.
#[no_mangle]
pub extern "C" fn proxy_on_http_call_response(_context: u32, _call: u32, headers: u32, _body_size: u32, _trailers: u32) {
    let may_pass = headers > 0 && matches!(header(Map::CallHeaders, b":status"), Ok(status) if matches!(status.as_slice(), [b'2', _, _]));
    if may_pass {
        let _ = continue_stream(Stream::Request);
    } else {
        refuse();
    }
}
