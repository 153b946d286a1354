//! Works on the fields of both heads, and answers one path itself.
//!
//! - A request to `/hello` is answered here.
//! - Any other one goes on with its path in `x-path`, with `/old/` at the front of its path as `/new/`, with `x-user` in small letters, and without
//!   `x-internal`.
//! - A response goes on with `x-frame-options: DENY` and without `server`.
use proxy_wasm::traits::*;
use proxy_wasm::types::*;

proxy_wasm::main! {{
    proxy_wasm::set_log_level(LogLevel::Info);
    proxy_wasm::set_http_context(|_, _| Box::new(Headers));
}}

struct Headers;

impl Context for Headers {}

impl HttpContext for Headers {
    fn on_http_request_headers(&mut self, _count: usize, _end_of_stream: bool) -> Action {
        let path = self.get_http_request_header(":path").unwrap_or_default();
        if path == "/hello" {
            self.send_http_response(200, vec![("x-said-by", "headers")], Some(b"Hello, World!\n"));
            return Action::Pause;
        }
        self.add_http_request_header("x-path", &path);
        if let Some(rest) = path.strip_prefix("/old/") {
            self.set_http_request_header(":path", Some(&format!("/new/{}", rest)));
        }
        // This call panics where the value is no UTF-8, and so ends the VM.
        if let Some(user) = self.get_http_request_header("x-user") {
            self.set_http_request_header("x-user", Some(&user.to_ascii_lowercase()));
        }
        self.set_http_request_header("x-internal", None);
        Action::Continue
    }

    fn on_http_response_headers(&mut self, _count: usize, _end_of_stream: bool) -> Action {
        self.set_http_response_header("x-frame-options", Some("DENY"));
        self.set_http_response_header("server", None);
        Action::Continue
    }
}
