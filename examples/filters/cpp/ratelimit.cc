// Lets each client (by its x-client) pass so many times at once, and so many times a second from then on; further requests are answered 429. The
// configuration is BURST PER_SECOND, by itself 2 1. The buckets stand in shared data, so that all workers have them in common, and are changed by
// compare-and-swap. The level of a bucket is a double: `tools/fit` makes integers of it.
#include <algorithm>
#include <cstring>

#include "proxy_wasm.h"

class Rate : public RootContext {
  public:
    using RootContext::RootContext;

    bool onConfigure(size_t size) override {
        if (size == 0) {
            return true;
        }
        std::string text = getBufferBytes(WasmBufferType::PluginConfiguration, 0, size)->toString();
        char *at = nullptr;
        burst = strtod(text.c_str(), &at);
        per_second = strtod(at, &at);
        return *at == 0 && burst >= 1 && per_second > 0;
    }

    double burst = 2;
    double per_second = 1;
};

// What a bucket holds, and when that was so.
struct Bucket {
    double level;
    uint64_t moment;
};

class Limit : public Context {
  public:
    using Context::Context;

    FilterHeadersStatus onRequestHeaders(uint32_t, bool) override {
        if (mayPass(getRequestHeader("x-client")->toString(), getCurrentTimeNanoseconds())) {
            return FilterHeadersStatus::Continue;
        }
        sendLocalResponse(429, "", "too many requests\n", {{"retry-after", "1"}});
        return FilterHeadersStatus::StopIteration;
    }

  private:
    // Whether a request may pass, which then is taken from its bucket.
    bool mayPass(const std::string &client, uint64_t moment) {
        const Rate &rate = *static_cast<Rate *>(root());
        std::string key = "bucket:" + client;
        for (;;) {
            Bucket bucket{rate.burst, moment};
            WasmDataPtr bytes;
            uint32_t cas = 0;
            if (getSharedData(key, &bytes, &cas) == WasmResult::Ok && bytes->size() == sizeof bucket) {
                memcpy(&bucket, bytes->data(), sizeof bucket);
                double seconds = moment > bucket.moment ? static_cast<double>(moment - bucket.moment) / 1e9 : 0;
                bucket = {std::min(rate.burst, bucket.level + seconds * rate.per_second), moment};
            }
            if (bucket.level < 1) {
                return false;
            }
            bucket.level -= 1;
            // Another worker may have been faster: then the bucket is read again.
            if (setSharedData(key, {reinterpret_cast<const char *>(&bucket), sizeof bucket}, cas) != WasmResult::CasMismatch) {
                return true;
            }
        }
    }
};

static RegisterContextFactory registered(CONTEXT_FACTORY(Limit), ROOT_FACTORY(Rate));
