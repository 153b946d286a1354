//! Tells a response the mean of its `x-numbers`, with two decimals: it parses, divides and writes floats.
use proxy_wasm::traits::*;
use proxy_wasm::types::*;

proxy_wasm::main! {{
    proxy_wasm::set_log_level(LogLevel::Info);
    proxy_wasm::set_http_context(|_, _| Box::new(Mean));
}}

struct Mean;

impl Context for Mean {}

impl HttpContext for Mean {
    fn on_http_response_headers(&mut self, _count: usize, _end_of_stream: bool) -> Action {
        let text = self.get_http_response_header("x-numbers").unwrap_or_default();
        let numbers: Vec<f64> = text.split(' ').filter_map(|number| number.parse().ok()).collect();
        let mean = numbers.iter().sum::<f64>() / numbers.len() as f64;
        self.add_http_response_header("x-mean", &format!("{:.2}", mean));
        Action::Continue
    }
}
