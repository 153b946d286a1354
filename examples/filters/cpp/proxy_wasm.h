// The Proxy-Wasm profile that wasmgate's filters have, for C++ with a library, in the shape of the C++ SDK: the same classes, the same names, the same
// exports, contexts in a std::unordered_map, and an end of the VM where the SDK ends it. It has the part of the SDK that the filters beside it use. It was
// written anew: the SDK is no package of Debian. docs/FROM_AN_SDK.md says what differs here from other hosts, docs/PROXY_WASM.md has each call's parameters,
// checks and answers. One source of a module includes it.
#pragma once

#include <cstdint>
#include <cstdlib>
#include <functional>
#include <memory>
#include <string>
#include <string_view>
#include <unordered_map>
#include <utility>
#include <vector>

enum class WasmResult : uint32_t {
    Ok = 0,
    NotFound = 1,
    BadArgument = 2,
    ParseFailure = 4,
    InvalidMemoryAccess = 6,
    Empty = 7,
    CasMismatch = 8,
    InternalFailure = 10,
    Unimplemented = 12,
};
enum class LogLevel : uint32_t { trace, debug, info, warn, error, critical };
enum class WasmHeaderMapType : uint32_t { RequestHeaders = 0, RequestTrailers = 1, ResponseHeaders = 2, ResponseTrailers = 3 };
enum class WasmBufferType : uint32_t { HttpRequestBody = 0, HttpResponseBody = 1, VmConfiguration = 6, PluginConfiguration = 7 };
enum class WasmStreamType : uint32_t { Request = 0, Response = 1 };
enum class FilterHeadersStatus : uint32_t { Continue = 0, StopIteration = 1 };
enum class FilterDataStatus : uint32_t { Continue = 0, StopIterationAndBuffer = 1 };
enum class FilterTrailersStatus : uint32_t { Continue = 0, StopIteration = 1 };
enum class GrpcStatus : int32_t { InvalidCode = -1 };

#define WASM_HOST(name) extern "C" __attribute__((import_module("env"), import_name(#name)))
WASM_HOST(proxy_log) WasmResult proxy_log(LogLevel level, const char *text, size_t size);
WASM_HOST(proxy_get_current_time_nanoseconds) WasmResult proxy_get_current_time_nanoseconds(uint64_t *time);
WASM_HOST(proxy_get_buffer_bytes)
WasmResult proxy_get_buffer_bytes(WasmBufferType buffer, uint32_t start, uint32_t length, const char **at, size_t *size);
WASM_HOST(proxy_set_buffer_bytes)
WasmResult proxy_set_buffer_bytes(WasmBufferType buffer, uint32_t start, uint32_t length, const char *bytes, size_t size);
WASM_HOST(proxy_get_header_map_value)
WasmResult proxy_get_header_map_value(WasmHeaderMapType map, const char *name, size_t name_size, const char **value, size_t *size);
WASM_HOST(proxy_add_header_map_value)
WasmResult proxy_add_header_map_value(WasmHeaderMapType map, const char *name, size_t name_size, const char *value, size_t size);
WASM_HOST(proxy_replace_header_map_value)
WasmResult proxy_replace_header_map_value(WasmHeaderMapType map, const char *name, size_t name_size, const char *value, size_t size);
WASM_HOST(proxy_remove_header_map_value) WasmResult proxy_remove_header_map_value(WasmHeaderMapType map, const char *name, size_t name_size);
WASM_HOST(proxy_get_shared_data)
WasmResult proxy_get_shared_data(const char *key, size_t key_size, const char **value, size_t *size, uint32_t *cas);
WASM_HOST(proxy_set_shared_data) WasmResult proxy_set_shared_data(const char *key, size_t key_size, const char *value, size_t size, uint32_t cas);
WASM_HOST(proxy_send_local_response)
WasmResult proxy_send_local_response(uint32_t code, const char *details, size_t details_size, const char *body, size_t body_size, const char *pairs,
                                     size_t pairs_size, GrpcStatus grpc_status);
WASM_HOST(proxy_get_property) WasmResult proxy_get_property(const char *path, size_t path_size, const char **value, size_t *size);

inline WasmResult logText(LogLevel level, std::string_view text) { return proxy_log(level, text.data(), text.size()); }
#define LOG_INFO(text) logText(LogLevel::info, (text))
#define LOG_WARN(text) logText(LogLevel::warn, (text))
#define LOG_ERROR(text) logText(LogLevel::error, (text))

// What has to be answered 0: with any other answer the VM ends, after a line that says which call it was.
#define CHECK_RESULT(call)                                                                                                                             \
    do {                                                                                                                                               \
        if ((call) != WasmResult::Ok) {                                                                                                                \
            logText(LogLevel::critical, #call);                                                                                                        \
            abort();                                                                                                                                   \
        }                                                                                                                                              \
    } while (0)

// Bytes that the host handed over by malloc.
class WasmData {
  public:
    WasmData(const char *data, size_t size) : data_(data), size_(size) {}
    ~WasmData() { ::free(const_cast<char *>(data_)); }
    WasmData(const WasmData &) = delete;
    WasmData &operator=(const WasmData &) = delete;
    const char *data() const { return data_; }
    size_t size() const { return size_; }
    std::string_view view() const { return {data_, size_}; }
    std::string toString() const { return std::string(view()); }

  private:
    const char *data_;
    size_t size_;
};
using WasmDataPtr = std::unique_ptr<WasmData>;
using HeaderStringPairs = std::vector<std::pair<std::string, std::string>>;

inline WasmDataPtr getHeaderMapValue(WasmHeaderMapType map, std::string_view name) {
    const char *value = nullptr;
    size_t size = 0;
    proxy_get_header_map_value(map, name.data(), name.size(), &value, &size);
    return std::make_unique<WasmData>(value, size);
}
inline WasmResult addHeader(WasmHeaderMapType map, std::string_view name, std::string_view value) {
    return proxy_add_header_map_value(map, name.data(), name.size(), value.data(), value.size());
}
inline WasmResult replaceHeader(WasmHeaderMapType map, std::string_view name, std::string_view value) {
    return proxy_replace_header_map_value(map, name.data(), name.size(), value.data(), value.size());
}
inline WasmDataPtr getRequestHeader(std::string_view name) { return getHeaderMapValue(WasmHeaderMapType::RequestHeaders, name); }
inline WasmResult addRequestHeader(std::string_view name, std::string_view value) { return addHeader(WasmHeaderMapType::RequestHeaders, name, value); }
inline WasmResult replaceRequestHeader(std::string_view name, std::string_view value) {
    return replaceHeader(WasmHeaderMapType::RequestHeaders, name, value);
}
inline WasmResult removeRequestHeader(std::string_view name) {
    return proxy_remove_header_map_value(WasmHeaderMapType::RequestHeaders, name.data(), name.size());
}
inline WasmDataPtr getResponseHeader(std::string_view name) { return getHeaderMapValue(WasmHeaderMapType::ResponseHeaders, name); }
inline WasmResult addResponseHeader(std::string_view name, std::string_view value) {
    return addHeader(WasmHeaderMapType::ResponseHeaders, name, value);
}
inline WasmResult replaceResponseHeader(std::string_view name, std::string_view value) {
    return replaceHeader(WasmHeaderMapType::ResponseHeaders, name, value);
}
inline WasmResult removeResponseHeader(std::string_view name) {
    return proxy_remove_header_map_value(WasmHeaderMapType::ResponseHeaders, name.data(), name.size());
}

inline WasmDataPtr getBufferBytes(WasmBufferType buffer, size_t start, size_t length) {
    const char *at = nullptr;
    size_t size = 0;
    proxy_get_buffer_bytes(buffer, start, length, &at, &size);
    return std::make_unique<WasmData>(at, size);
}
inline WasmResult setBuffer(WasmBufferType buffer, size_t start, size_t length, std::string_view bytes) {
    return proxy_set_buffer_bytes(buffer, start, length, bytes.data(), bytes.size());
}

inline WasmResult getSharedData(std::string_view key, WasmDataPtr *value, uint32_t *cas) {
    const char *at = nullptr;
    size_t size = 0;
    WasmResult result = proxy_get_shared_data(key.data(), key.size(), &at, &size, cas);
    *value = std::make_unique<WasmData>(at, size);
    return result;
}
inline WasmResult setSharedData(std::string_view key, std::string_view value, uint32_t cas) {
    return proxy_set_shared_data(key.data(), key.size(), value.data(), value.size(), cas);
}

inline uint64_t getCurrentTimeNanoseconds() {
    uint64_t time = 0;
    proxy_get_current_time_nanoseconds(&time);
    return time;
}

// The bytes that pairs are spelled by: a count, the sizes of each name and value, then each name and value with a zero byte after it.
inline std::string pairsBytes(const HeaderStringPairs &pairs) {
    std::string bytes;
    auto number = [&](uint32_t value) { bytes.append(reinterpret_cast<const char *>(&value), sizeof value); };
    number(pairs.size());
    for (const auto &pair : pairs) {
        number(pair.first.size());
        number(pair.second.size());
    }
    for (const auto &pair : pairs) {
        bytes.append(pair.first).push_back(0);
        bytes.append(pair.second).push_back(0);
    }
    return bytes;
}
inline WasmResult sendLocalResponse(uint32_t code, std::string_view details, std::string_view body, const HeaderStringPairs &headers,
                                    GrpcStatus grpc_status = GrpcStatus::InvalidCode) {
    std::string pairs = pairsBytes(headers);
    return proxy_send_local_response(code, details.data(), details.size(), body.data(), body.size(), pairs.data(), pairs.size(), grpc_status);
}

class RootContext;

class ContextBase {
  public:
    explicit ContextBase(uint32_t id) : id_(id) {}
    virtual ~ContextBase() = default;
    uint32_t id() const { return id_; }
    virtual RootContext *asRoot() { return nullptr; }
    virtual class Context *asContext() { return nullptr; }
    virtual bool onDone() { return true; }
    virtual void onLog() {}

  private:
    uint32_t id_;
};

class RootContext : public ContextBase {
  public:
    RootContext(uint32_t id, std::string_view root_id) : ContextBase(id), root_id_(root_id) {}
    RootContext *asRoot() override { return this; }
    const std::string &root_id() const { return root_id_; }
    virtual bool onStart(size_t /*vm_configuration_size*/) { return true; }
    virtual bool onConfigure(size_t /*plugin_configuration_size*/) { return true; }
    virtual void onTick() {}
    virtual void onQueueReady(uint32_t /*token*/) {}

  private:
    std::string root_id_;
};

class Context : public ContextBase {
  public:
    Context(uint32_t id, RootContext *root) : ContextBase(id), root_(root) {}
    Context *asContext() override { return this; }
    RootContext *root() { return root_; }
    virtual void onCreate() {}
    virtual FilterHeadersStatus onRequestHeaders(uint32_t /*headers*/, bool /*end_of_stream*/) { return FilterHeadersStatus::Continue; }
    virtual FilterDataStatus onRequestBody(size_t /*size*/, bool /*end_of_stream*/) { return FilterDataStatus::Continue; }
    virtual FilterTrailersStatus onRequestTrailers(uint32_t /*trailers*/) { return FilterTrailersStatus::Continue; }
    virtual FilterHeadersStatus onResponseHeaders(uint32_t /*headers*/, bool /*end_of_stream*/) { return FilterHeadersStatus::Continue; }
    virtual FilterDataStatus onResponseBody(size_t /*size*/, bool /*end_of_stream*/) { return FilterDataStatus::Continue; }
    virtual FilterTrailersStatus onResponseTrailers(uint32_t /*trailers*/) { return FilterTrailersStatus::Continue; }

  private:
    RootContext *root_;
};

using ContextFactory = std::function<std::unique_ptr<Context>(uint32_t id, RootContext *root)>;
using RootFactory = std::function<std::unique_ptr<RootContext>(uint32_t id, std::string_view root_id)>;

// The factories by the name of their root. They are made by constructors of the module, before the first callback.
struct Factories {
    std::unordered_map<std::string, ContextFactory> contexts;
    std::unordered_map<std::string, RootFactory> roots;
};
inline Factories &factories() {
    static auto *all = new Factories;
    return *all;
}
inline std::unordered_map<uint32_t, std::unique_ptr<ContextBase>> &contextMap() {
    static auto *all = new std::unordered_map<uint32_t, std::unique_ptr<ContextBase>>;
    return *all;
}

struct RegisterContextFactory {
    explicit RegisterContextFactory(ContextFactory context, RootFactory root, std::string_view root_id = "") {
        factories().contexts.emplace(root_id, std::move(context));
        factories().roots.emplace(root_id, std::move(root));
    }
    explicit RegisterContextFactory(ContextFactory context, std::string_view root_id = "") { factories().contexts.emplace(root_id, std::move(context)); }
};
#define CONTEXT_FACTORY(name) [](uint32_t id, RootContext *root) -> std::unique_ptr<Context> { return std::make_unique<name>(id, root); }
#define ROOT_FACTORY(name) [](uint32_t id, std::string_view root_id) -> std::unique_ptr<RootContext> { return std::make_unique<name>(id, root_id); }

// The root of a plug-in. Its class is found by the property `plugin_root_id`, and a host without that property ends the VM here.
inline RootContext *ensureRootContext(uint32_t id) {
    auto found = contextMap().find(id);
    if (found != contextMap().end()) {
        return found->second->asRoot();
    }
    const char *at = nullptr;
    size_t size = 0;
    CHECK_RESULT(proxy_get_property("plugin_root_id", sizeof("plugin_root_id") - 1, &at, &size));
    WasmData root_id(at, size);
    auto factory = factories().roots.find(root_id.toString());
    std::unique_ptr<RootContext> root =
        factory == factories().roots.end() ? std::make_unique<RootContext>(id, root_id.view()) : factory->second(id, root_id.view());
    RootContext *made = root.get();
    contextMap()[id] = std::move(root);
    return made;
}

inline Context *ensureContext(uint32_t id, uint32_t root_id) {
    auto found = contextMap().find(id);
    if (found != contextMap().end()) {
        return found->second->asContext();
    }
    RootContext *root = ensureRootContext(root_id);
    auto factory = factories().contexts.find(root->root_id());
    if (factory == factories().contexts.end()) {
        logText(LogLevel::critical, "no context factory for root_id: " + root->root_id());
        abort();
    }
    std::unique_ptr<Context> context = factory->second(id, root);
    Context *made = context.get();
    contextMap()[id] = std::move(context);
    return made;
}

inline ContextBase *contextOf(uint32_t id) {
    auto found = contextMap().find(id);
    if (found == contextMap().end()) {
        abort();
    }
    return found->second.get();
}
inline Context *streamOf(uint32_t id) { return contextOf(id)->asContext(); }
inline RootContext *rootOf(uint32_t id) { return contextOf(id)->asRoot(); }

// The callbacks, all of which a module over this header exports: so every body goes in chunks and loses its length.
#define WASM_CALLBACK(name) extern "C" __attribute__((export_name(#name)))
WASM_CALLBACK(proxy_abi_version_0_2_1) void proxy_abi_version_0_2_1() {}
WASM_CALLBACK(proxy_on_memory_allocate) void *proxy_on_memory_allocate(size_t size) { return ::malloc(size); }
WASM_CALLBACK(proxy_on_context_create) void proxy_on_context_create(uint32_t id, uint32_t root_id) {
    if (root_id == 0) {
        ensureRootContext(id);
    } else {
        ensureContext(id, root_id)->onCreate();
    }
}
WASM_CALLBACK(proxy_on_vm_start) uint32_t proxy_on_vm_start(uint32_t id, uint32_t size) { return rootOf(id)->onStart(size); }
WASM_CALLBACK(proxy_on_configure) uint32_t proxy_on_configure(uint32_t id, uint32_t size) { return rootOf(id)->onConfigure(size); }
WASM_CALLBACK(proxy_on_tick) void proxy_on_tick(uint32_t id) { rootOf(id)->onTick(); }
WASM_CALLBACK(proxy_on_queue_ready) void proxy_on_queue_ready(uint32_t id, uint32_t token) { rootOf(id)->onQueueReady(token); }
WASM_CALLBACK(proxy_on_request_headers) FilterHeadersStatus proxy_on_request_headers(uint32_t id, uint32_t headers, uint32_t end) {
    return streamOf(id)->onRequestHeaders(headers, end != 0);
}
WASM_CALLBACK(proxy_on_request_body) FilterDataStatus proxy_on_request_body(uint32_t id, uint32_t size, uint32_t end) {
    return streamOf(id)->onRequestBody(size, end != 0);
}
WASM_CALLBACK(proxy_on_request_trailers) FilterTrailersStatus proxy_on_request_trailers(uint32_t id, uint32_t trailers) {
    return streamOf(id)->onRequestTrailers(trailers);
}
WASM_CALLBACK(proxy_on_response_headers) FilterHeadersStatus proxy_on_response_headers(uint32_t id, uint32_t headers, uint32_t end) {
    return streamOf(id)->onResponseHeaders(headers, end != 0);
}
WASM_CALLBACK(proxy_on_response_body) FilterDataStatus proxy_on_response_body(uint32_t id, uint32_t size, uint32_t end) {
    return streamOf(id)->onResponseBody(size, end != 0);
}
WASM_CALLBACK(proxy_on_response_trailers) FilterTrailersStatus proxy_on_response_trailers(uint32_t id, uint32_t trailers) {
    return streamOf(id)->onResponseTrailers(trailers);
}
WASM_CALLBACK(proxy_on_done) uint32_t proxy_on_done(uint32_t id) { return contextOf(id)->onDone(); }
WASM_CALLBACK(proxy_on_log) void proxy_on_log(uint32_t id) { contextOf(id)->onLog(); }
WASM_CALLBACK(proxy_on_delete) void proxy_on_delete(uint32_t id) { contextMap().erase(id); }
