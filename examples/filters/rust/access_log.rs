//! Writes a line of JSON to the log for each exchange: method, path, status, how many bytes the bodies had, and how many milliseconds passed.
//! Fields are taken as bytes, so that a value that is no UTF-8 does not end the VM.
use proxy_wasm::hostcalls;
use proxy_wasm::traits::*;
use proxy_wasm::types::*;
use std::time::SystemTime;

proxy_wasm::main! {{
    proxy_wasm::set_log_level(LogLevel::Info);
    proxy_wasm::set_http_context(|_, _| Box::new(Exchange::default()));
}}

#[derive(Default)]
struct Exchange {
    began: Option<SystemTime>,
    method: Bytes,
    path: Bytes,
    status: Bytes,
    request: usize,
    response: usize,
}

impl Context for Exchange {}

impl HttpContext for Exchange {
    fn on_http_request_headers(&mut self, _count: usize, _end_of_stream: bool) -> Action {
        self.began = Some(self.get_current_time());
        self.method = self.get_http_request_header_bytes(":method").unwrap_or_default();
        self.path = self.get_http_request_header_bytes(":path").unwrap_or_default();
        Action::Continue
    }

    fn on_http_request_body(&mut self, size: usize, _end_of_stream: bool) -> Action {
        self.request += size;
        Action::Continue
    }

    fn on_http_response_headers(&mut self, _count: usize, _end_of_stream: bool) -> Action {
        self.status = self.get_http_response_header_bytes(":status").unwrap_or_default();
        Action::Continue
    }

    fn on_http_response_body(&mut self, size: usize, _end_of_stream: bool) -> Action {
        self.response += size;
        Action::Continue
    }

    fn on_log(&mut self) {
        let passed = self.began.and_then(|began| self.get_current_time().duration_since(began).ok()).unwrap_or_default();
        let line = format!(
            "{{\"method\":\"{}\",\"path\":\"{}\",\"status\":\"{}\",\"request\":{},\"response\":{},\"ms\":{}}}",
            quoted(&self.method),
            quoted(&self.path),
            quoted(&self.status),
            self.request,
            self.response,
            passed.as_millis()
        );
        let _ = hostcalls::log(LogLevel::Info, &line);
    }
}

/// Bytes inside a string of JSON: what is no UTF-8 is shown by the replacement character.
fn quoted(bytes: &[u8]) -> String {
    let mut out = String::new();
    for letter in String::from_utf8_lossy(bytes).chars() {
        match letter {
            '"' => out.push_str("\\\""),
            '\\' => out.push_str("\\\\"),
            letter if (letter as u32) < 32 => out.push_str(&format!("\\u{:04x}", letter as u32)),
            letter => out.push(letter),
        }
    }
    out
}
