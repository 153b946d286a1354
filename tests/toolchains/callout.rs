//! Holds the head of a request until the server has answered a call, and lets it go on with the status of that answer. A call to another name than `upstream` is
//! an error that the SDK hands to the filter.
use proxy_wasm::traits::*;
use proxy_wasm::types::*;
use std::time::Duration;

proxy_wasm::main! {{
    proxy_wasm::set_log_level(LogLevel::Info);
    proxy_wasm::set_http_context(|_, _| Box::new(Callout));
}}

struct Callout;

impl Context for Callout {
    fn on_http_call_response(&mut self, _token: u32, headers: usize, body_size: usize, trailers: usize) {
        let status = if headers > 0 { self.get_http_call_response_header(":status") } else { None };
        let body = self.get_http_call_response_body(0, body_size).unwrap_or_default();
        let text = format!("{}/{}/{}/{}", status.unwrap_or("none".into()), headers, String::from_utf8_lossy(&body), trailers);
        self.set_http_request_header("x-answer", Some(&text));
        self.resume_http_request();
    }
}

impl HttpContext for Callout {
    fn on_http_request_headers(&mut self, _count: usize, _end_of_stream: bool) -> Action {
        let headers = vec![(":method", "GET"), (":path", "/"), (":authority", "auth")];
        if self.dispatch_http_call("auth", headers.clone(), None, vec![], Duration::from_secs(1)) != Err(Status::BadArgument) {
            return Action::Continue;
        }
        match self.dispatch_http_call("upstream", headers, None, vec![], Duration::from_secs(1)) {
            Ok(_) => Action::Pause,
            Err(_) => Action::Continue,
        }
    }
}
