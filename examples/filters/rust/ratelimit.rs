//! Lets each client (by its `x-client`) pass so many times at once, and so many times a second from then on; further requests are answered 429. The
//! configuration is `BURST PER_SECOND`, by itself `2 1`. The buckets stand in shared data, so that all workers have them in common, and are changed by
//! compare-and-swap.
use proxy_wasm::traits::*;
use proxy_wasm::types::*;
use std::time::UNIX_EPOCH;

proxy_wasm::main! {{
    proxy_wasm::set_log_level(LogLevel::Info);
    proxy_wasm::set_root_context(|_| Box::new(Root { rate: Rate { burst: 2, per_second: 1 } }));
}}

#[derive(Clone, Copy)]
struct Rate {
    burst: u64,
    per_second: u64,
}

struct Root {
    rate: Rate,
}

impl Context for Root {}

impl RootContext for Root {
    fn on_configure(&mut self, _size: usize) -> bool {
        let text = match self.get_plugin_configuration() {
            Some(bytes) => String::from_utf8_lossy(&bytes).into_owned(),
            None => return true,
        };
        let mut numbers = text.split_whitespace().map(str::parse::<u64>);
        match (numbers.next(), numbers.next(), numbers.next()) {
            (Some(Ok(burst)), Some(Ok(per_second)), None) if burst > 0 && per_second > 0 => {
                self.rate = Rate { burst, per_second };
                true
            }
            _ => false,
        }
    }

    fn create_http_context(&self, _context: u32) -> Option<Box<dyn HttpContext>> {
        Some(Box::new(Limit { rate: self.rate }))
    }

    fn get_type(&self) -> Option<ContextType> {
        Some(ContextType::HttpContext)
    }
}

struct Limit {
    rate: Rate,
}

impl Context for Limit {}

/// What a bucket holds, in billionths of a request, and when that was so. It is kept as 16 bytes.
struct Bucket {
    level: u64,
    moment: u64,
}

const ONE: u64 = 1_000_000_000;

impl Bucket {
    fn of_bytes(bytes: &[u8]) -> Option<Bucket> {
        let number = |at: usize| bytes.get(at..at + 8).and_then(|eight| eight.try_into().ok()).map(u64::from_le_bytes);
        Some(Bucket { level: number(0)?, moment: number(8)? })
    }

    fn bytes(&self) -> Vec<u8> {
        [self.level.to_le_bytes(), self.moment.to_le_bytes()].concat()
    }

    /// What the bucket holds later.
    fn at(self, moment: u64, rate: Rate) -> Bucket {
        let gained = moment.saturating_sub(self.moment).saturating_mul(rate.per_second);
        let most = rate.burst.saturating_mul(ONE);
        Bucket { level: self.level.saturating_add(gained).min(most), moment }
    }
}

impl Limit {
    /// Whether a request may pass, which then is taken from its bucket.
    fn may_pass(&self, client: &[u8], moment: u64) -> bool {
        let key = format!("bucket:{}", String::from_utf8_lossy(client));
        loop {
            let (bytes, cas) = self.get_shared_data(&key);
            let full = Bucket { level: self.rate.burst.saturating_mul(ONE), moment };
            let bucket = bytes.as_deref().and_then(Bucket::of_bytes).map_or(full, |old| old.at(moment, self.rate));
            if bucket.level < ONE {
                return false;
            }
            let left = Bucket { level: bucket.level - ONE, moment };
            // Another worker may have been faster: then the bucket is read again.
            if self.set_shared_data(&key, Some(&left.bytes()), cas).is_ok() {
                return true;
            }
        }
    }
}

impl HttpContext for Limit {
    fn on_http_request_headers(&mut self, _count: usize, _end_of_stream: bool) -> Action {
        let client = self.get_http_request_header_bytes("x-client").unwrap_or_default();
        let moment = self.get_current_time().duration_since(UNIX_EPOCH).map_or(0, |since| since.as_nanos() as u64);
        if self.may_pass(&client, moment) {
            return Action::Continue;
        }
        self.send_http_response(429, vec![("retry-after", "1")], Some(b"too many requests\n"));
        Action::Pause
    }
}
