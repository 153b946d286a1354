// Holds a response's body to its end, and replaces words in it. The configuration has a line WORD=OTHER for each; without one, `secret` becomes `******`.
// Bodies whose type is no text pass piece by piece.
#include "proxy_wasm.h"

class Rules : public RootContext {
  public:
    using RootContext::RootContext;

    bool onConfigure(size_t size) override {
        WasmDataPtr bytes = getBufferBytes(WasmBufferType::PluginConfiguration, 0, size);
        std::string_view text = size ? bytes->view() : std::string_view("secret=******");
        while (!text.empty()) {
            size_t end = text.find('\n');
            std::string_view line = text.substr(0, end);
            text = end == text.npos ? std::string_view() : text.substr(end + 1);
            size_t at = line.find('=');
            if (at == line.npos || at == 0) {
                // A line of another form: the VM does not start.
                return false;
            }
            rules.emplace_back(line.substr(0, at), line.substr(at + 1));
        }
        return true;
    }

    std::vector<std::pair<std::string, std::string>> rules;
};

static std::string replaced(std::string_view text, std::string_view word, std::string_view other) {
    std::string out;
    out.reserve(text.size());
    for (;;) {
        size_t at = text.find(word);
        out.append(text.substr(0, at));
        if (at == text.npos) {
            return out;
        }
        out.append(other);
        text.remove_prefix(at + word.size());
    }
}

class Rewrite : public Context {
  public:
    using Context::Context;

    FilterHeadersStatus onResponseHeaders(uint32_t, bool) override {
        WasmDataPtr kind = getResponseHeader("content-type");
        is_text = kind->view().rfind("text/", 0) == 0 || kind->view().rfind("application/json", 0) == 0;
        return FilterHeadersStatus::Continue;
    }

    FilterDataStatus onResponseBody(size_t size, bool end_of_stream) override {
        if (!is_text) {
            return FilterDataStatus::Continue;
        }
        if (!end_of_stream) {
            return FilterDataStatus::StopIterationAndBuffer;
        }
        std::string body = getBufferBytes(WasmBufferType::HttpResponseBody, 0, size)->toString();
        for (const auto &rule : static_cast<Rules *>(root())->rules) {
            body = replaced(body, rule.first, rule.second);
        }
        setBuffer(WasmBufferType::HttpResponseBody, 0, size, body);
        return FilterDataStatus::Continue;
    }

  private:
    bool is_text = false;
};

static RegisterContextFactory registered(CONTEXT_FACTORY(Rewrite), ROOT_FACTORY(Rules));
