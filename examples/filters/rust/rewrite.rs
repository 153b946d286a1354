//! Holds a response's body to its end, and replaces words in it. The configuration has a line `WORD=OTHER` for each; without one, `secret` becomes
//! `******`. Where bodies may have nothing replaced, as where their type is no text, they pass piece by piece.
use proxy_wasm::traits::*;
use proxy_wasm::types::*;
use std::rc::Rc;

proxy_wasm::main! {{
    proxy_wasm::set_log_level(LogLevel::Info);
    proxy_wasm::set_root_context(|_| Box::new(Root { rules: Rc::default() }));
}}

/// What becomes of which word.
type Rules = Vec<(Vec<u8>, Vec<u8>)>;

struct Root {
    rules: Rc<Rules>,
}

impl Context for Root {}

impl RootContext for Root {
    fn on_configure(&mut self, _size: usize) -> bool {
        let text = self.get_plugin_configuration().unwrap_or_else(|| b"secret=******".to_vec());
        let mut rules = Rules::new();
        for line in String::from_utf8_lossy(&text).lines() {
            match line.split_once('=') {
                Some((word, other)) if !word.is_empty() => rules.push((word.into(), other.into())),
                // A line of another form: the VM does not start.
                _ => return false,
            }
        }
        self.rules = Rc::new(rules);
        true
    }

    fn create_http_context(&self, _context: u32) -> Option<Box<dyn HttpContext>> {
        Some(Box::new(Rewrite { rules: self.rules.clone(), is_text: false }))
    }

    fn get_type(&self) -> Option<ContextType> {
        Some(ContextType::HttpContext)
    }
}

struct Rewrite {
    rules: Rc<Rules>,
    is_text: bool,
}

impl Context for Rewrite {}

impl HttpContext for Rewrite {
    fn on_http_response_headers(&mut self, _count: usize, _end_of_stream: bool) -> Action {
        let kind = self.get_http_response_header_bytes("content-type").unwrap_or_default();
        self.is_text = kind.starts_with(b"text/") || kind.starts_with(b"application/json");
        Action::Continue
    }

    fn on_http_response_body(&mut self, size: usize, end_of_stream: bool) -> Action {
        if !self.is_text {
            return Action::Continue;
        }
        if !end_of_stream {
            return Action::Pause;
        }
        if let Some(body) = self.get_http_response_body(0, size) {
            let mut new = body;
            for (word, other) in self.rules.iter() {
                new = replaced(&new, word, other);
            }
            self.set_http_response_body(0, size, &new);
        }
        Action::Continue
    }
}

/// The text with each `word`, from its front on, as `other`.
fn replaced(text: &[u8], word: &[u8], other: &[u8]) -> Vec<u8> {
    let mut out = Vec::with_capacity(text.len());
    let mut at = 0;
    while at < text.len() {
        if text[at..].starts_with(word) {
            out.extend_from_slice(other);
            at += word.len();
        } else {
            out.push(text[at]);
            at += 1;
        }
    }
    out
}
