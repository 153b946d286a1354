//! The calls on heads, bodies, streams of bytes, answers, properties, metrics and log lines of the Proxy-Wasm profile that wasmgate's filters have, for Rust without a
//! library: `#![no_std]`, and each filter exports the callbacks that it needs and no other one. Other calls are added the same way; docs/PROXY_WASM.md has
//! each call's parameters, checks and answers.
#![allow(dead_code)]

use core::panic::PanicInfo;
use core::ptr::{addr_of_mut, null, null_mut};
use core::slice::{from_raw_parts, from_raw_parts_mut};

/// What a callback of a stream answers.
#[repr(u32)]
#[derive(Clone, Copy)]
pub enum Action {
    Continue = 0,
    Pause = 1,
}

/// The fields that a call is about.
#[repr(u32)]
#[derive(Clone, Copy)]
pub enum Map {
    RequestHeaders = 0,
    RequestTrailers = 1,
    ResponseHeaders = 2,
    ResponseTrailers = 3,
    CallHeaders = 6,
    CallTrailers = 7,
}

/// The bytes that a call is about.
#[repr(u32)]
#[derive(Clone, Copy)]
pub enum Buffer {
    RequestBody = 0,
    ResponseBody = 1,
    /// Where connections are streams of bytes: what the client sent, and what the server did.
    DownstreamData = 2,
    UpstreamData = 3,
    CallBody = 4,
    VmConfiguration = 6,
    PluginConfiguration = 7,
}

/// A direction of an exchange, or of a connection whose bytes are no messages.
#[repr(u32)]
#[derive(Clone, Copy)]
pub enum Stream {
    Request = 0,
    Response = 1,
    Downstream = 2,
    Upstream = 3,
}

/// What a metric counts.
#[repr(u32)]
#[derive(Clone, Copy)]
pub enum Metric {
    Counter = 0,
    Gauge = 1,
}

/// The level of a log line.
#[repr(u32)]
#[derive(Clone, Copy)]
pub enum Level {
    Trace = 0,
    Debug = 1,
    Info = 2,
    Warn = 3,
    Error = 4,
    Critical = 5,
}

/// What a host call answers where it did not do what it was asked.
#[derive(Clone, Copy, PartialEq, Eq)]
pub struct Status(pub u32);

impl Status {
    pub const NOT_FOUND: Status = Status(1);
    pub const BAD_ARGUMENT: Status = Status(2);
    pub const PARSE_FAILURE: Status = Status(4);
    pub const INVALID_MEMORY_ACCESS: Status = Status(6);
    pub const EMPTY: Status = Status(7);
    pub const CAS_MISMATCH: Status = Status(8);
    pub const INTERNAL_FAILURE: Status = Status(10);
    pub const UNIMPLEMENTED: Status = Status(12);
}

// The host reads the ranges that it is given, during the call, and writes to the places of results and to what it was given by
// `proxy_on_memory_allocate`, nowhere else. So a call is safe where each range is empty or a reference's, and each place a reference's.
#[link(wasm_import_module = "env")]
extern "C" {
    fn proxy_log(level: u32, text: *const u8, size: usize) -> u32;
    fn proxy_get_buffer_bytes(buffer: u32, start: usize, most: usize, at: *mut *mut u8, size: *mut usize) -> u32;
    fn proxy_set_buffer_bytes(buffer: u32, start: usize, size: usize, bytes: *const u8, len: usize) -> u32;
    fn proxy_get_header_map_value(map: u32, name: *const u8, name_size: usize, at: *mut *mut u8, size: *mut usize) -> u32;
    fn proxy_add_header_map_value(map: u32, name: *const u8, name_size: usize, value: *const u8, size: usize) -> u32;
    fn proxy_replace_header_map_value(map: u32, name: *const u8, name_size: usize, value: *const u8, size: usize) -> u32;
    fn proxy_remove_header_map_value(map: u32, name: *const u8, name_size: usize) -> u32;
    fn proxy_get_property(path: *const u8, path_size: usize, at: *mut *mut u8, size: *mut usize) -> u32;
    fn proxy_set_property(path: *const u8, path_size: usize, value: *const u8, size: usize) -> u32;
    fn proxy_define_metric(kind: u32, name: *const u8, name_size: usize, id: *mut u32) -> u32;
    fn proxy_increment_metric(id: u32, offset: i64) -> u32;
    fn proxy_continue_stream(stream: u32) -> u32;
    fn proxy_close_stream(stream: u32) -> u32;
    fn proxy_send_local_response(
        code: u32,
        details: *const u8,
        details_size: usize,
        body: *const u8,
        body_size: usize,
        pairs: *const u8,
        pairs_size: usize,
        grpc_status: u32,
    ) -> u32;
    fn proxy_http_call(
        upstream: *const u8,
        upstream_size: usize,
        headers: *const u8,
        headers_size: usize,
        body: *const u8,
        body_size: usize,
        trailers: *const u8,
        trailers_size: usize,
        timeout: u32,
        call: *mut u32,
    ) -> u32;
}

/// Writes a line to the log.
pub fn log(level: Level, text: &[u8]) -> Result<(), Status> {
    done(unsafe { proxy_log(level as u32, text.as_ptr(), text.len()) })
}

/// The value of a field. Several fields of one name come as one value, joined by commas.
pub fn header(map: Map, name: &[u8]) -> Result<Bytes, Status> {
    let (mut at, mut size) = (null_mut(), 0);
    let status = unsafe { proxy_get_header_map_value(map as u32, name.as_ptr(), name.len(), &mut at, &mut size) };
    handed_over(status, at, size)
}

/// Puts a field behind those that are there.
pub fn add_header(map: Map, name: &[u8], value: &[u8]) -> Result<(), Status> {
    done(unsafe { proxy_add_header_map_value(map as u32, name.as_ptr(), name.len(), value.as_ptr(), value.len()) })
}

/// Makes a value the only one of its name.
pub fn replace_header(map: Map, name: &[u8], value: &[u8]) -> Result<(), Status> {
    done(unsafe { proxy_replace_header_map_value(map as u32, name.as_ptr(), name.len(), value.as_ptr(), value.len()) })
}

/// Drops all fields of a name.
pub fn remove_header(map: Map, name: &[u8]) -> Result<(), Status> {
    done(unsafe { proxy_remove_header_map_value(map as u32, name.as_ptr(), name.len()) })
}

/// At most `most` bytes of a buffer, from place `start` on.
pub fn buffer(buffer: Buffer, start: usize, most: usize) -> Result<Bytes, Status> {
    let (mut at, mut size) = (null_mut(), 0);
    let status = unsafe { proxy_get_buffer_bytes(buffer as u32, start, most, &mut at, &mut size) };
    handed_over(status, at, size)
}

/// Puts bytes in the place of `size` bytes of a body, from place `start` on.
pub fn set_buffer(buffer: Buffer, start: usize, size: usize, bytes: &[u8]) -> Result<(), Status> {
    done(unsafe { proxy_set_buffer_bytes(buffer as u32, start, size, bytes.as_ptr(), bytes.len()) })
}

/// Passes on what the effective context holds of a stream.
pub fn continue_stream(stream: Stream) -> Result<(), Status> {
    done(unsafe { proxy_continue_stream(stream as u32) })
}

/// A property of the effective context, by its path, whose parts have a zero byte between them.
pub fn property(path: &[u8]) -> Result<Bytes, Status> {
    let (mut at, mut size) = (null_mut(), 0);
    let status = unsafe { proxy_get_property(path.as_ptr(), path.len(), &mut at, &mut size) };
    handed_over(status, at, size)
}

/// Sets a property of the effective context.
pub fn set_property(path: &[u8], value: &[u8]) -> Result<(), Status> {
    done(unsafe { proxy_set_property(path.as_ptr(), path.len(), value.as_ptr(), value.len()) })
}

/// The id of a metric, which is the same for all workers.
pub fn define_metric(kind: Metric, name: &[u8]) -> Result<u32, Status> {
    let mut id = 0;
    done(unsafe { proxy_define_metric(kind as u32, name.as_ptr(), name.len(), &mut id) })?;
    Ok(id)
}

/// Adds to this worker's word of a metric.
pub fn increment_metric(id: u32, offset: i64) -> Result<(), Status> {
    done(unsafe { proxy_increment_metric(id, offset) })
}

/// Closes the connections of the exchange, or those of a stream of bytes.
pub fn close_stream(stream: Stream) -> Result<(), Status> {
    done(unsafe { proxy_close_stream(stream as u32) })
}

/// Answers the exchange: a status from 200 to 599 and a body, without fields of the filter's own.
pub fn send_local_response(code: u32, body: &[u8]) -> Result<(), Status> {
    done(unsafe { proxy_send_local_response(code, null(), 0, body.as_ptr(), body.len(), null(), 0, u32::MAX) })
}

/// Sends a request of the filter's own to the server, and answers the number of the call. Among the fields are `:method`, `:path` and `:authority`. The outcome
/// comes to `proxy_on_http_call_response`, on the context that is the effective one now.
pub fn http_call(fields: &Pairs, body: &[u8], milliseconds: u32) -> Result<u32, Status> {
    let (upstream, fields, mut call) = (b"upstream", fields.as_slice(), 0);
    let status = unsafe {
        proxy_http_call(
            upstream.as_ptr(),
            upstream.len(),
            fields.as_ptr(),
            fields.len(),
            body.as_ptr(),
            body.len(),
            null(),
            0,
            milliseconds,
            &mut call,
        )
    };
    done(status).map(|()| call)
}

fn done(status: u32) -> Result<(), Status> {
    match status {
        0 => Ok(()),
        other => Err(Status(other)),
    }
}

fn handed_over(status: u32, at: *mut u8, size: usize) -> Result<Bytes, Status> {
    if status != 0 {
        return Err(Status(status));
    }
    unsafe { LENT += size };
    Ok(Bytes { at, size })
}

/// Bytes that the host handed over. They are in `ROOM`, of which nothing is given out again as long as a value of this type is left, so
/// each has its bytes to itself.
pub struct Bytes {
    at: *mut u8,
    size: usize,
}

impl Bytes {
    /// How many bytes there are.
    pub fn len(&self) -> usize {
        self.size
    }

    /// Whether there is none.
    pub fn is_empty(&self) -> bool {
        self.size == 0
    }

    /// The bytes, to be read.
    pub fn as_slice(&self) -> &[u8] {
        if self.is_empty() {
            return &[];
        }
        unsafe { from_raw_parts(self.at, self.size) }
    }

    /// The bytes, to be changed where they are.
    pub fn as_mut_slice(&mut self) -> &mut [u8] {
        if self.is_empty() {
            return &mut [];
        }
        unsafe { from_raw_parts_mut(self.at, self.size) }
    }
}

impl Drop for Bytes {
    fn drop(&mut self) {
        unsafe { LENT -= self.size };
    }
}

/// How many bytes `Pairs` may take.
const PAIRS_SIZE: usize = 196_608;
static mut PAIRS: [u8; PAIRS_SIZE] = [0; PAIRS_SIZE];

/// Pairs as the host reads them: how many, the sizes of each name and value, and then each name and value with a zero byte after it. They are in `PAIRS`,
/// so only those that were made last are there; what does not fit is cut off, which the host refuses.
pub struct Pairs {
    size: usize,
}

impl Pairs {
    /// These pairs.
    pub fn of(list: &[(&[u8], &[u8])]) -> Pairs {
        let mut pairs = Pairs { size: 0 };
        pairs.put(&(list.len() as u32).to_le_bytes());
        for (name, value) in list {
            pairs.put(&(name.len() as u32).to_le_bytes());
            pairs.put(&(value.len() as u32).to_le_bytes());
        }
        for (name, value) in list {
            for part in [name, value] {
                pairs.put(part);
                pairs.put(b"\0");
            }
        }
        pairs
    }

    fn put(&mut self, bytes: &[u8]) {
        for byte in bytes {
            if self.size < PAIRS_SIZE {
                unsafe { PAIRS[self.size] = *byte };
                self.size += 1;
            }
        }
    }

    fn as_slice(&self) -> &[u8] {
        unsafe { from_raw_parts(addr_of_mut!(PAIRS) as *const u8, self.size) }
    }
}

/// How many bytes can be lent at one time. A field and a configuration take up to 131,072, a body that is held up to 1,048,576. What does
/// not fit is not handed over, and the call answers INVALID_MEMORY_ACCESS.
const ROOM_SIZE: usize = 131_072;
static mut ROOM: [u8; ROOM_SIZE] = [0; ROOM_SIZE];

/// How many bytes of the room were given out.
static mut USED: usize = 0;
/// How many bytes of the room the values of `Bytes` have.
static mut LENT: usize = 0;

/// Room for what the host hands over, or null where there is not as much.
#[no_mangle]
pub extern "C" fn proxy_on_memory_allocate(size: usize) -> *mut u8 {
    // A filter has one thread, and there is no reference to a byte that is given out here.
    unsafe {
        if LENT == 0 {
            USED = 0;
        }
        if size > ROOM_SIZE - USED {
            return null_mut();
        }
        let at = (addr_of_mut!(ROOM) as *mut u8).add(USED);
        USED += size;
        at
    }
}

/// The marker of the ABI, which each module exports.
#[no_mangle]
pub extern "C" fn proxy_abi_version_0_2_1() {}

/// Spends the fuel of a filter that panics, which ends its VM. Nothing of this module and of the filters beside it panics.
#[panic_handler]
fn panic(_: &PanicInfo) -> ! {
    loop {}
}
