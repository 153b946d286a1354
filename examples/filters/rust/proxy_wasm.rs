//! The Proxy-Wasm profile that wasmgate's filters have, as a crate in the shape of the Rust SDK: the same traits, the same names of types and
//! functions, the same exports, and a panic where the SDK panics. It has the part of the SDK that the filters beside it use, and no dependency. So a filter
//! over it compiles over the SDK too, where it uses no `hostcalls::log`. It was written anew: the SDK is no package of Debian. docs/FROM_AN_SDK.md says what
//! differs here from other hosts, docs/PROXY_WASM.md has each call's parameters, checks and answers.

pub mod types {
    /// What a callback of a stream answers.
    #[repr(u32)]
    #[derive(Clone, Copy, Debug, PartialEq, Eq)]
    pub enum Action {
        Continue = 0,
        Pause = 1,
    }

    /// Which contexts a root makes.
    #[derive(Clone, Copy, Debug, PartialEq, Eq)]
    pub enum ContextType {
        HttpContext,
    }

    /// The bytes that a call is about.
    #[repr(u32)]
    #[derive(Clone, Copy, Debug, PartialEq, Eq)]
    pub enum BufferType {
        HttpRequestBody = 0,
        HttpResponseBody = 1,
        HttpCallResponseBody = 4,
        VmConfiguration = 6,
        PluginConfiguration = 7,
    }

    /// The fields that a call is about.
    #[repr(u32)]
    #[derive(Clone, Copy, Debug, PartialEq, Eq)]
    pub enum MapType {
        HttpRequestHeaders = 0,
        HttpRequestTrailers = 1,
        HttpResponseHeaders = 2,
        HttpResponseTrailers = 3,
        HttpCallResponseHeaders = 6,
        HttpCallResponseTrailers = 7,
    }

    /// The level of a log line.
    #[repr(u32)]
    #[derive(Clone, Copy, Debug, PartialEq, Eq)]
    pub enum LogLevel {
        Trace = 0,
        Debug = 1,
        Info = 2,
        Warn = 3,
        Error = 4,
        Critical = 5,
    }

    /// What a host call answers where it did not do what it was asked, of the answers that are given to the filter. At every other one a call panics.
    #[derive(Clone, Copy, Debug, PartialEq, Eq)]
    pub enum Status {
        NotFound,
        BadArgument,
        CasMismatch,
        InternalFailure,
    }

    pub type Bytes = Vec<u8>;
}

/// The host's calls as functions.
pub mod hostcalls {
    use crate::types::{BufferType, Bytes, LogLevel, MapType, Status};
    use std::ptr::{null, null_mut};
    use std::time::{Duration, SystemTime, UNIX_EPOCH};

    #[link(wasm_import_module = "env")]
    extern "C" {
        fn proxy_log(level: u32, text: *const u8, size: usize) -> u32;
        fn proxy_get_current_time_nanoseconds(time: *mut u64) -> u32;
        fn proxy_set_tick_period_milliseconds(period: u32) -> u32;
        fn proxy_get_buffer_bytes(buffer: u32, start: usize, most: usize, at: *mut *mut u8, size: *mut usize) -> u32;
        fn proxy_set_buffer_bytes(buffer: u32, start: usize, size: usize, bytes: *const u8, len: usize) -> u32;
        fn proxy_get_header_map_pairs(map: u32, at: *mut *mut u8, size: *mut usize) -> u32;
        fn proxy_get_header_map_value(map: u32, name: *const u8, name_size: usize, at: *mut *mut u8, size: *mut usize) -> u32;
        fn proxy_add_header_map_value(map: u32, name: *const u8, name_size: usize, value: *const u8, size: usize) -> u32;
        fn proxy_replace_header_map_value(map: u32, name: *const u8, name_size: usize, value: *const u8, size: usize) -> u32;
        fn proxy_remove_header_map_value(map: u32, name: *const u8, name_size: usize) -> u32;
        fn proxy_get_property(path: *const u8, path_size: usize, at: *mut *mut u8, size: *mut usize) -> u32;
        fn proxy_get_shared_data(key: *const u8, key_size: usize, at: *mut *mut u8, size: *mut usize, cas: *mut u32) -> u32;
        fn proxy_set_shared_data(key: *const u8, key_size: usize, value: *const u8, size: usize, cas: u32) -> u32;
        fn proxy_continue_stream(stream: u32) -> u32;
        fn proxy_send_local_response(
            code: u32,
            details: *const u8,
            details_size: usize,
            body: *const u8,
            body_size: usize,
            pairs: *const u8,
            pairs_size: usize,
            grpc_status: i32,
        ) -> u32;
        fn proxy_http_call(
            upstream: *const u8,
            upstream_size: usize,
            headers: *const u8,
            headers_size: usize,
            body: *const u8,
            body_size: usize,
            trailers: *const u8,
            trailers_size: usize,
            timeout: u32,
            token: *mut u32,
        ) -> u32;
    }

    fn unexpected(status: u32) -> ! {
        panic!("unexpected status: {}", status)
    }

    fn done(status: u32) -> Result<(), Status> {
        match status {
            0 => Ok(()),
            other => unexpected(other),
        }
    }

    /// What the host handed over by `proxy_on_memory_allocate`. Nothing was allocated for no bytes.
    fn handed_over(at: *mut u8, size: usize) -> Bytes {
        if at.is_null() {
            return Vec::new();
        }
        // The allocation has the size that the host asked for, which is the size that it wrote.
        unsafe { Vec::from_raw_parts(at, size, size) }
    }

    pub fn log(level: LogLevel, text: &str) -> Result<(), Status> {
        done(unsafe { proxy_log(level as u32, text.as_ptr(), text.len()) })
    }

    pub fn get_current_time() -> Result<SystemTime, Status> {
        let mut nanoseconds = 0;
        done(unsafe { proxy_get_current_time_nanoseconds(&mut nanoseconds) })?;
        Ok(UNIX_EPOCH + Duration::from_nanos(nanoseconds))
    }

    pub fn set_tick_period(period: Duration) -> Result<(), Status> {
        done(unsafe { proxy_set_tick_period_milliseconds(period.as_millis() as u32) })
    }

    pub fn get_buffer(buffer: BufferType, start: usize, most: usize) -> Result<Option<Bytes>, Status> {
        let (mut at, mut size) = (null_mut(), 0);
        match unsafe { proxy_get_buffer_bytes(buffer as u32, start, most, &mut at, &mut size) } {
            0 if at.is_null() => Ok(None),
            0 => Ok(Some(handed_over(at, size))),
            1 => Ok(None),
            other => unexpected(other),
        }
    }

    pub fn set_buffer(buffer: BufferType, start: usize, size: usize, value: &[u8]) -> Result<(), Status> {
        done(unsafe { proxy_set_buffer_bytes(buffer as u32, start, size, value.as_ptr(), value.len()) })
    }

    /// All fields of a map, in their order.
    pub fn get_map_bytes(map: MapType) -> Result<Vec<(String, Bytes)>, Status> {
        let (mut at, mut size) = (null_mut(), 0);
        match unsafe { proxy_get_header_map_pairs(map as u32, &mut at, &mut size) } {
            0 => Ok(pairs_of(&handed_over(at, size))),
            other => unexpected(other),
        }
    }

    pub fn get_map_value_bytes(map: MapType, name: &str) -> Result<Option<Bytes>, Status> {
        let (mut at, mut size) = (null_mut(), 0);
        match unsafe { proxy_get_header_map_value(map as u32, name.as_ptr(), name.len(), &mut at, &mut size) } {
            0 => Ok(Some(handed_over(at, size))),
            1 => Ok(None),
            other => unexpected(other),
        }
    }

    /// The value of a field as text. It **panics** where that is no UTF-8, as the SDK does; `get_map_value_bytes` does not.
    pub fn get_map_value(map: MapType, name: &str) -> Result<Option<String>, Status> {
        Ok(get_map_value_bytes(map, name)?.map(|bytes| String::from_utf8(bytes).unwrap()))
    }

    /// Makes a value the only one of its name, or drops all fields of the name.
    pub fn set_map_value(map: MapType, name: &str, value: Option<&[u8]>) -> Result<(), Status> {
        done(match value {
            Some(value) => unsafe { proxy_replace_header_map_value(map as u32, name.as_ptr(), name.len(), value.as_ptr(), value.len()) },
            None => unsafe { proxy_remove_header_map_value(map as u32, name.as_ptr(), name.len()) },
        })
    }

    pub fn add_map_value(map: MapType, name: &str, value: &[u8]) -> Result<(), Status> {
        done(unsafe { proxy_add_header_map_value(map as u32, name.as_ptr(), name.len(), value.as_ptr(), value.len()) })
    }

    pub fn get_property(path: Vec<&str>) -> Result<Option<Bytes>, Status> {
        let path = path.join("\0");
        let (mut at, mut size) = (null_mut(), 0);
        match unsafe { proxy_get_property(path.as_ptr(), path.len(), &mut at, &mut size) } {
            0 => Ok(Some(handed_over(at, size))),
            1 => Ok(None),
            other => unexpected(other),
        }
    }

    /// A value of the shared data, and the number that a write has to give.
    pub fn get_shared_data(key: &str) -> Result<(Option<Bytes>, Option<u32>), Status> {
        let (mut at, mut size, mut cas) = (null_mut(), 0, 0);
        match unsafe { proxy_get_shared_data(key.as_ptr(), key.len(), &mut at, &mut size, &mut cas) } {
            0 => Ok((Some(handed_over(at, size)), Some(cas).filter(|&cas| cas != 0))),
            1 => Ok((None, None)),
            other => unexpected(other),
        }
    }

    pub fn set_shared_data(key: &str, value: Option<&[u8]>, cas: Option<u32>) -> Result<(), Status> {
        let value = value.unwrap_or(&[]);
        match unsafe { proxy_set_shared_data(key.as_ptr(), key.len(), value.as_ptr(), value.len(), cas.unwrap_or(0)) } {
            0 => Ok(()),
            8 => Err(Status::CasMismatch),
            other => unexpected(other),
        }
    }

    pub fn resume(stream: u32) -> Result<(), Status> {
        done(unsafe { proxy_continue_stream(stream) })
    }

    pub fn send_http_response(code: u32, headers: Vec<(&str, &str)>, body: Option<&[u8]>) -> Result<(), Status> {
        let pairs = bytes_of(&headers);
        let body = body.unwrap_or(&[]);
        done(unsafe { proxy_send_local_response(code, null(), 0, body.as_ptr(), body.len(), pairs.as_ptr(), pairs.len(), -1) })
    }

    /// A request of the filter's own to the server, whose name is `upstream`, and its token.
    pub fn dispatch_http_call(
        upstream: &str,
        headers: Vec<(&str, &str)>,
        body: Option<&[u8]>,
        trailers: Vec<(&str, &str)>,
        timeout: Duration,
    ) -> Result<u32, Status> {
        let (headers, trailers) = (bytes_of(&headers), bytes_of(&trailers));
        let body = body.unwrap_or(&[]);
        let mut token = 0;
        let status = unsafe {
            proxy_http_call(
                upstream.as_ptr(),
                upstream.len(),
                headers.as_ptr(),
                headers.len(),
                body.as_ptr(),
                body.len(),
                trailers.as_ptr(),
                trailers.len(),
                timeout.as_millis() as u32,
                &mut token,
            )
        };
        match status {
            0 => Ok(token),
            2 => Err(Status::BadArgument),
            10 => Err(Status::InternalFailure),
            other => unexpected(other),
        }
    }

    fn bytes_of(pairs: &[(&str, &str)]) -> Bytes {
        let mut bytes = Vec::new();
        bytes.extend((pairs.len() as u32).to_le_bytes());
        for (name, value) in pairs {
            bytes.extend((name.len() as u32).to_le_bytes());
            bytes.extend((value.len() as u32).to_le_bytes());
        }
        for (name, value) in pairs {
            for part in [name, value] {
                bytes.extend(part.as_bytes());
                bytes.push(0);
            }
        }
        bytes
    }

    fn pairs_of(bytes: &[u8]) -> Vec<(String, Bytes)> {
        let number = |at: usize| bytes.get(at..at + 4).map_or(0, |four| u32::from_le_bytes([four[0], four[1], four[2], four[3]]) as usize);
        let count = number(0);
        let mut at = 4 + 8 * count;
        let mut pairs = Vec::with_capacity(count);
        for place in 0..count {
            let (name, value) = (number(4 + 8 * place), number(8 + 8 * place));
            let text = String::from_utf8(bytes[at..at + name].to_vec()).unwrap();
            at += name + 1;
            pairs.push((text, bytes[at..at + value].to_vec()));
            at += value + 1;
        }
        pairs
    }
}

/// What a filter implements. Each method without a body of the filter's own lets pass.
pub mod traits {
    use crate::hostcalls;
    use crate::types::{Action, BufferType, Bytes, ContextType, MapType, Status};
    use std::time::{Duration, SystemTime};

    pub trait Context {
        fn get_current_time(&self) -> SystemTime {
            hostcalls::get_current_time().unwrap()
        }
        fn get_property(&self, path: Vec<&str>) -> Option<Bytes> {
            hostcalls::get_property(path).unwrap()
        }
        fn get_shared_data(&self, key: &str) -> (Option<Bytes>, Option<u32>) {
            hostcalls::get_shared_data(key).unwrap()
        }
        fn set_shared_data(&self, key: &str, value: Option<&[u8]>, cas: Option<u32>) -> Result<(), Status> {
            hostcalls::set_shared_data(key, value, cas)
        }
        fn dispatch_http_call(
            &self,
            upstream: &str,
            headers: Vec<(&str, &str)>,
            body: Option<&[u8]>,
            trailers: Vec<(&str, &str)>,
            timeout: Duration,
        ) -> Result<u32, Status> {
            hostcalls::dispatch_http_call(upstream, headers, body, trailers, timeout)
        }
        /// The outcome of a call: how many headers, bytes and trailers its answer has; all are 0 if none came.
        fn on_http_call_response(&mut self, _token: u32, _headers: usize, _body_size: usize, _trailers: usize) {}
        fn get_http_call_response_headers_bytes(&self) -> Vec<(String, Bytes)> {
            hostcalls::get_map_bytes(MapType::HttpCallResponseHeaders).unwrap()
        }
        fn get_http_call_response_header(&self, name: &str) -> Option<String> {
            hostcalls::get_map_value(MapType::HttpCallResponseHeaders, name).unwrap()
        }
        fn get_http_call_response_header_bytes(&self, name: &str) -> Option<Bytes> {
            hostcalls::get_map_value_bytes(MapType::HttpCallResponseHeaders, name).unwrap()
        }
        fn get_http_call_response_body(&self, start: usize, most: usize) -> Option<Bytes> {
            hostcalls::get_buffer(BufferType::HttpCallResponseBody, start, most).unwrap()
        }
        fn get_http_call_response_trailer(&self, name: &str) -> Option<String> {
            hostcalls::get_map_value(MapType::HttpCallResponseTrailers, name).unwrap()
        }
        fn on_done(&mut self) -> bool {
            true
        }
    }

    pub trait RootContext: Context {
        fn on_vm_start(&mut self, _size: usize) -> bool {
            true
        }
        fn on_configure(&mut self, _size: usize) -> bool {
            true
        }
        fn get_vm_configuration(&self) -> Option<Bytes> {
            hostcalls::get_buffer(BufferType::VmConfiguration, 0, usize::MAX).unwrap()
        }
        fn get_plugin_configuration(&self) -> Option<Bytes> {
            hostcalls::get_buffer(BufferType::PluginConfiguration, 0, usize::MAX).unwrap()
        }
        fn set_tick_period(&self, period: Duration) {
            hostcalls::set_tick_period(period).unwrap()
        }
        fn on_tick(&mut self) {}
        fn on_queue_ready(&mut self, _queue: u32) {}
        fn create_http_context(&self, _context: u32) -> Option<Box<dyn HttpContext>> {
            None
        }
        fn get_type(&self) -> Option<ContextType> {
            None
        }
    }

    pub trait HttpContext: Context {
        fn on_http_request_headers(&mut self, _count: usize, _end_of_stream: bool) -> Action {
            Action::Continue
        }
        fn get_http_request_headers_bytes(&self) -> Vec<(String, Bytes)> {
            hostcalls::get_map_bytes(MapType::HttpRequestHeaders).unwrap()
        }
        fn get_http_request_header(&self, name: &str) -> Option<String> {
            hostcalls::get_map_value(MapType::HttpRequestHeaders, name).unwrap()
        }
        fn get_http_request_header_bytes(&self, name: &str) -> Option<Bytes> {
            hostcalls::get_map_value_bytes(MapType::HttpRequestHeaders, name).unwrap()
        }
        fn set_http_request_header(&self, name: &str, value: Option<&str>) {
            hostcalls::set_map_value(MapType::HttpRequestHeaders, name, value.map(str::as_bytes)).unwrap()
        }
        fn add_http_request_header(&self, name: &str, value: &str) {
            hostcalls::add_map_value(MapType::HttpRequestHeaders, name, value.as_bytes()).unwrap()
        }
        fn on_http_request_body(&mut self, _size: usize, _end_of_stream: bool) -> Action {
            Action::Continue
        }
        fn get_http_request_body(&self, start: usize, most: usize) -> Option<Bytes> {
            hostcalls::get_buffer(BufferType::HttpRequestBody, start, most).unwrap()
        }
        fn set_http_request_body(&self, start: usize, size: usize, value: &[u8]) {
            hostcalls::set_buffer(BufferType::HttpRequestBody, start, size, value).unwrap()
        }
        fn on_http_request_trailers(&mut self, _count: usize) -> Action {
            Action::Continue
        }
        fn resume_http_request(&self) {
            hostcalls::resume(0).unwrap()
        }
        fn on_http_response_headers(&mut self, _count: usize, _end_of_stream: bool) -> Action {
            Action::Continue
        }
        fn get_http_response_header(&self, name: &str) -> Option<String> {
            hostcalls::get_map_value(MapType::HttpResponseHeaders, name).unwrap()
        }
        fn get_http_response_header_bytes(&self, name: &str) -> Option<Bytes> {
            hostcalls::get_map_value_bytes(MapType::HttpResponseHeaders, name).unwrap()
        }
        fn set_http_response_header(&self, name: &str, value: Option<&str>) {
            hostcalls::set_map_value(MapType::HttpResponseHeaders, name, value.map(str::as_bytes)).unwrap()
        }
        fn add_http_response_header(&self, name: &str, value: &str) {
            hostcalls::add_map_value(MapType::HttpResponseHeaders, name, value.as_bytes()).unwrap()
        }
        fn on_http_response_body(&mut self, _size: usize, _end_of_stream: bool) -> Action {
            Action::Continue
        }
        fn get_http_response_body(&self, start: usize, most: usize) -> Option<Bytes> {
            hostcalls::get_buffer(BufferType::HttpResponseBody, start, most).unwrap()
        }
        fn set_http_response_body(&self, start: usize, size: usize, value: &[u8]) {
            hostcalls::set_buffer(BufferType::HttpResponseBody, start, size, value).unwrap()
        }
        fn on_http_response_trailers(&mut self, _count: usize) -> Action {
            Action::Continue
        }
        fn resume_http_response(&self) {
            hostcalls::resume(1).unwrap()
        }
        fn send_http_response(&self, code: u32, headers: Vec<(&str, &str)>, body: Option<&[u8]>) {
            hostcalls::send_http_response(code, headers, body).unwrap()
        }
        fn on_log(&mut self) {}
    }
}

use crate::traits::{HttpContext, RootContext};
use crate::types::{Action, ContextType, LogLevel};
use std::cell::RefCell;
use std::collections::HashMap;

pub type NewRootContext = fn(context: u32) -> Box<dyn RootContext>;
pub type NewHttpContext = fn(context: u32, root: u32) -> Box<dyn HttpContext>;

/// The contexts of the VM.
#[derive(Default)]
struct Contexts {
    new_root: Option<NewRootContext>,
    new_http: Option<NewHttpContext>,
    roots: HashMap<u32, Box<dyn RootContext>>,
    streams: HashMap<u32, Box<dyn HttpContext>>,
}

thread_local! {
    static CONTEXTS: RefCell<Contexts> = RefCell::default();
}

fn with<R>(work: impl FnOnce(&mut Contexts) -> R) -> R {
    CONTEXTS.with(|contexts| work(&mut contexts.borrow_mut()))
}

/// Lets a panic write its text to the log, as the SDK's function of this name does. The level itself is the host's here.
pub fn set_log_level(_level: LogLevel) {
    std::panic::set_hook(Box::new(|info| {
        let _ = hostcalls::log(LogLevel::Critical, &info.to_string());
    }));
}

pub fn set_root_context(new: NewRootContext) {
    with(|contexts| contexts.new_root = Some(new));
}

pub fn set_http_context(new: NewHttpContext) {
    with(|contexts| contexts.new_http = Some(new));
}

/// What the module does first.
#[macro_export]
macro_rules! main {
    ($code:block) => {
        #[cfg(target_os = "wasi")]
        extern "C" {
            fn __wasm_call_ctors();
        }

        #[no_mangle]
        pub extern "C" fn _initialize() {
            #[cfg(target_os = "wasi")]
            unsafe {
                __wasm_call_ctors();
            }
            $code
        }
    };
}

/// The callbacks, all of which a module over this crate exports: so every body goes in chunks and loses its length.
mod exports {
    use super::*;

    struct PlainRoot;
    impl traits::Context for PlainRoot {}
    impl RootContext for PlainRoot {}

    /// The work of a context of a stream.
    fn stream<R>(id: u32, work: impl FnOnce(&mut dyn HttpContext) -> R) -> R {
        with(|contexts| match contexts.streams.get_mut(&id) {
            Some(stream) => work(&mut **stream),
            None => panic!("invalid context_id"),
        })
    }

    fn root<R>(id: u32, work: impl FnOnce(&mut dyn RootContext) -> R) -> R {
        with(|contexts| match contexts.roots.get_mut(&id) {
            Some(root) => work(&mut **root),
            None => panic!("invalid context_id"),
        })
    }

    #[no_mangle]
    pub extern "C" fn proxy_abi_version_0_2_1() {}

    #[no_mangle]
    pub extern "C" fn proxy_on_memory_allocate(size: usize) -> *mut u8 {
        let bytes = vec![0u8; size].into_boxed_slice();
        Box::into_raw(bytes) as *mut u8
    }

    #[no_mangle]
    pub extern "C" fn proxy_on_context_create(id: u32, root_id: u32) {
        with(|contexts| {
            if root_id == 0 {
                let root = contexts.new_root.map_or_else(|| Box::new(PlainRoot) as Box<dyn RootContext>, |new| new(id));
                contexts.roots.insert(id, root);
                return;
            }
            let made = match contexts.roots.get(&root_id) {
                Some(root) if root.get_type() == Some(ContextType::HttpContext) => root.create_http_context(id),
                _ => None,
            };
            let stream = made.or_else(|| contexts.new_http.map(|new| new(id, root_id)));
            contexts.streams.insert(id, stream.expect("missing constructors"));
        })
    }

    #[no_mangle]
    pub extern "C" fn proxy_on_vm_start(id: u32, size: usize) -> bool {
        root(id, |root| root.on_vm_start(size))
    }

    #[no_mangle]
    pub extern "C" fn proxy_on_configure(id: u32, size: usize) -> bool {
        root(id, |root| root.on_configure(size))
    }

    #[no_mangle]
    pub extern "C" fn proxy_on_tick(id: u32) {
        root(id, |root| root.on_tick())
    }

    #[no_mangle]
    pub extern "C" fn proxy_on_queue_ready(id: u32, queue: u32) {
        root(id, |root| root.on_queue_ready(queue))
    }

    #[no_mangle]
    pub extern "C" fn proxy_on_request_headers(id: u32, count: usize, end: bool) -> Action {
        stream(id, |stream| stream.on_http_request_headers(count, end))
    }

    #[no_mangle]
    pub extern "C" fn proxy_on_request_body(id: u32, size: usize, end: bool) -> Action {
        stream(id, |stream| stream.on_http_request_body(size, end))
    }

    #[no_mangle]
    pub extern "C" fn proxy_on_request_trailers(id: u32, count: usize) -> Action {
        stream(id, |stream| stream.on_http_request_trailers(count))
    }

    #[no_mangle]
    pub extern "C" fn proxy_on_response_headers(id: u32, count: usize, end: bool) -> Action {
        stream(id, |stream| stream.on_http_response_headers(count, end))
    }

    #[no_mangle]
    pub extern "C" fn proxy_on_response_body(id: u32, size: usize, end: bool) -> Action {
        stream(id, |stream| stream.on_http_response_body(size, end))
    }

    #[no_mangle]
    pub extern "C" fn proxy_on_response_trailers(id: u32, count: usize) -> Action {
        stream(id, |stream| stream.on_http_response_trailers(count))
    }

    #[no_mangle]
    pub extern "C" fn proxy_on_http_call_response(id: u32, token: u32, headers: usize, body_size: usize, trailers: usize) {
        with(|contexts| match (contexts.streams.get_mut(&id), contexts.roots.get_mut(&id)) {
            (Some(stream), _) => stream.on_http_call_response(token, headers, body_size, trailers),
            (None, Some(root)) => root.on_http_call_response(token, headers, body_size, trailers),
            (None, None) => panic!("invalid context_id"),
        })
    }

    #[no_mangle]
    pub extern "C" fn proxy_on_done(id: u32) -> bool {
        with(|contexts| match (contexts.streams.get_mut(&id), contexts.roots.get_mut(&id)) {
            (Some(stream), _) => stream.on_done(),
            (None, Some(root)) => root.on_done(),
            (None, None) => panic!("invalid context_id"),
        })
    }

    #[no_mangle]
    pub extern "C" fn proxy_on_log(id: u32) {
        with(|contexts| {
            if let Some(stream) = contexts.streams.get_mut(&id) {
                stream.on_log();
            }
        })
    }

    #[no_mangle]
    pub extern "C" fn proxy_on_delete(id: u32) {
        with(|contexts| {
            contexts.streams.remove(&id);
            contexts.roots.remove(&id);
        })
    }
}
