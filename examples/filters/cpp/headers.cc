// Works on the fields of both heads, and answers one path itself.
//
// - A request to /hello is answered here.
// - Any other one goes on with its path in x-path, with /old/ at the front of its path as /new/, with x-user in small letters, and without x-internal.
// - A response goes on with `x-frame-options: DENY` and without server.
#include "proxy_wasm.h"

class Headers : public Context {
  public:
    using Context::Context;

    FilterHeadersStatus onRequestHeaders(uint32_t, bool) override {
        std::string path = getRequestHeader(":path")->toString();
        if (path == "/hello") {
            sendLocalResponse(200, "", "Hello, World!\n", {{"x-said-by", "headers"}});
            return FilterHeadersStatus::StopIteration;
        }
        addRequestHeader("x-path", path);
        if (path.rfind("/old/", 0) == 0) {
            replaceRequestHeader(":path", "/new/" + path.substr(5));
        }
        std::string user = getRequestHeader("x-user")->toString();
        if (!user.empty()) {
            for (char &letter : user) {
                if (letter >= 'A' && letter <= 'Z') {
                    letter += 'a' - 'A';
                }
            }
            replaceRequestHeader("x-user", user);
        }
        removeRequestHeader("x-internal");
        return FilterHeadersStatus::Continue;
    }

    FilterHeadersStatus onResponseHeaders(uint32_t, bool) override {
        replaceResponseHeader("x-frame-options", "DENY");
        removeResponseHeader("server");
        return FilterHeadersStatus::Continue;
    }
};

static RegisterContextFactory registered(CONTEXT_FACTORY(Headers));
