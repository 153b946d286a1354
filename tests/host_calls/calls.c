// A filter that makes the host calls which its program tells, and logs the status of each. The program is the VM's configuration (or is
// compiled in, as PROGRAM). README.md beside this file tells the form of programs.
typedef unsigned char u8;
typedef unsigned int u32;
typedef unsigned long long u64;

#define ENV(name, ...) __attribute__((import_module("env"), import_name(#name))) extern u32 name(__VA_ARGS__);
#ifdef INITIALIZE
#define WASI_MODULE "wasi_unstable"
#else
#define WASI_MODULE "wasi_snapshot_preview1"
#endif
#define WASI(name, ...) __attribute__((import_module(WASI_MODULE), import_name(#name))) extern u32 name(__VA_ARGS__);
#define CALLBACK(name) __attribute__((export_name(#name)))

ENV(proxy_log, u32, u32, u32)
ENV(proxy_get_log_level, u32)
ENV(proxy_get_current_time_nanoseconds, u32)
ENV(proxy_set_tick_period_milliseconds, u32)
ENV(proxy_set_effective_context, u32)
ENV(proxy_done, void)
ENV(proxy_get_buffer_bytes, u32, u32, u32, u32, u32)
ENV(proxy_get_buffer_status, u32, u32, u32)
ENV(proxy_set_buffer_bytes, u32, u32, u32, u32, u32)
ENV(proxy_get_header_map_pairs, u32, u32, u32)
ENV(proxy_set_header_map_pairs, u32, u32, u32)
ENV(proxy_get_header_map_size, u32, u32)
ENV(proxy_get_header_map_value, u32, u32, u32, u32, u32)
ENV(proxy_add_header_map_value, u32, u32, u32, u32, u32)
ENV(proxy_replace_header_map_value, u32, u32, u32, u32, u32)
ENV(proxy_remove_header_map_value, u32, u32, u32)
ENV(proxy_continue_stream, u32)
ENV(proxy_close_stream, u32)
ENV(proxy_send_local_response, u32, u32, u32, u32, u32, u32, u32, u32)
ENV(proxy_http_call, u32, u32, u32, u32, u32, u32, u32, u32, u32, u32)
ENV(proxy_get_shared_data, u32, u32, u32, u32, u32)
ENV(proxy_set_shared_data, u32, u32, u32, u32, u32)
ENV(proxy_register_shared_queue, u32, u32, u32)
ENV(proxy_resolve_shared_queue, u32, u32, u32, u32, u32)
ENV(proxy_dequeue_shared_queue, u32, u32, u32)
ENV(proxy_enqueue_shared_queue, u32, u32, u32)
ENV(proxy_get_property, u32, u32, u32, u32)
ENV(proxy_set_property, u32, u32, u32, u32)
ENV(proxy_define_metric, u32, u32, u32, u32)
ENV(proxy_increment_metric, u32, u64)
ENV(proxy_record_metric, u32, u64)
ENV(proxy_get_metric, u32, u32)
ENV(proxy_some_other_call, u32, u64)
WASI(fd_write, u32, u32, u32, u32)
WASI(clock_time_get, u32, u64, u32)
WASI(random_get, u32, u32)
WASI(environ_get, u32, u32)
WASI(args_get, u32, u32)
WASI(environ_sizes_get, u32, u32)
WASI(args_sizes_get, u32, u32)
WASI(fd_close, u32)
__attribute__((import_module(WASI_MODULE), import_name("proc_exit"))) extern void proc_exit(u32);
#ifdef INITIALIZE
__attribute__((import_module("env"), import_name("emscripten_notify_memory_growth"))) extern void notify_memory_growth(u32);
#endif

// how much a statement may give to a call, and how much the allocator gives out in a callback
#define ARENA 262144
#ifdef BIG
#define ROOM 1245184
#define LARGE 1179648
static u8 large[LARGE] __attribute__((aligned(8))); // the last long text of one byte, which is often used again
static u32 large_used;
static char large_of;
#else
#define ROOM 131072
#endif
#ifndef NO_ALLOCATOR
static u8 room[ROOM] __attribute__((aligned(8)));   // what the allocator gives out, anew in each callback
#endif
static u8 arena[ARENA] __attribute__((aligned(8)));      // the texts that a statement gives to a call
static u8 pending[65536];                              // reports that could not be logged inside an allocation
static u32 slots[64] __attribute__((aligned(8)));      // places of results
static u32 used, arena_used, pending_used;
static u32 own;        // the program itself calls, so the allocator runs no statements
static u32 allocating; // inside an allocation
static u32 counter;    // of `times`
static u32 context;    // of the callback
static u32 answer;     // of the callback
static u32 arguments[4], arguments_used;

#ifdef PROGRAM
static const char program[] =
#include PROGRAM
    ;
static const u32 program_size = sizeof(program) - 1;
#else
static const char *program;
static u32 program_size;
static u32 loaded;
#endif
static u32 kept; // what the program takes of the allocator's room

struct path {
    u32 context;
    u32 size;
    u8 text[64];
};
static struct path paths[64];
static u32 paths_used;

// What the compiler calls by itself.
void *memset(void *at, int byte, unsigned long size) {
    for (unsigned long i = 0; i < size; i++) {
        ((volatile u8 *)at)[i] = byte;
    }
    return at;
}

// ---- reports

static u8 report[4096];
static u32 report_used;

static void say_byte(u8 byte) {
    if (report_used < sizeof report) {
        report[report_used++] = byte;
    }
}

static void say(const char *text, u32 size) {
    for (u32 i = 0; i < size; i++) {
        say_byte(text[i]);
    }
}

static void say_number(u64 number) {
    u8 reversed[20];
    u32 n = 0;
    do {
        reversed[n++] = '0' + number % 10;
        number /= 10;
    } while (number);
    while (n) {
        say_byte(reversed[--n]);
    }
}

static void flush(void) {
    u32 at = 0;
    while (at < pending_used) {
        u32 n = 0;
        while (pending[at + n] != '\n') {
            n++;
        }
        proxy_log(5, (u32)(pending + at), n);
        at += n + 1;
    }
    pending_used = 0;
}

static void said(void) {
    if (allocating) {
        for (u32 i = 0; i < report_used && pending_used < sizeof pending - 1; i++) {
            pending[pending_used++] = report[i];
        }
        pending[pending_used++] = '\n';
    } else {
        flush();
        proxy_log(5, (u32)report, report_used);
    }
    report_used = 0;
}

// ---- texts and words

static u32 digit(char c) { return c <= '9' ? c - '0' : c - 'a' + 10; }

static void put(u8 byte) {
    if (arena_used < ARENA) {
        arena[arena_used++] = byte;
    }
}

static void put_number(u32 number) {
    for (u32 i = 0; i < 4; i++) {
        put(number >> 8 * i);
    }
}

// The end of the text from `at` up to one of two bytes; escaped bytes are none of them.
static u32 end_of(const char *line, u32 at, u32 size, char a, char b) {
    while (at < size && line[at] != a && line[at] != b) {
        at += line[at] == '\\' ? 2 : 1;
    }
    return at < size ? at : size;
}

// Puts a text with its escapes (\xNN, \#, and \ before any other byte) into the arena.
static void put_text(const char *line, u32 at, u32 end) {
    while (at < end) {
        if (line[at] != '\\') {
            put(line[at++]);
        } else if (line[at + 1] == 'x') {
            put(digit(line[at + 2]) << 4 | digit(line[at + 3]));
            at += 4;
        } else if (line[at + 1] == '#') {
            u32 n = counter, power = 1;
            while (n / power > 9) {
                power *= 10;
            }
            for (; power; power /= 10) {
                put('0' + n / power % 10);
            }
            at += 2;
        } else {
            put(line[at + 1]);
            at += 2;
        }
    }
}

static u64 number_of(const char *line, u32 *at, u32 size) {
    u64 n = 0;
    while (*at < size && line[*at] >= '0' && line[*at] <= '9') {
        n = n * 10 + (line[(*at)++] - '0');
    }
    return n;
}

static u32 length_of_member(const char *line, u32 at, u32 end) {
    u32 before = arena_used;
    put_text(line, at, end);
    u32 length = arena_used - before;
    arena_used = before;
    return length;
}

// Pairs as the host reads them: `[name=value|name=value]`.
static void put_pairs(const char *line, u32 at, u32 end) {
    u32 count = 0;
    for (u32 i = at; i < end; i = end_of(line, i, end, '|', '|') + 1) {
        count++;
    }
    put_number(count);
    for (u32 i = at; i < end;) {
        u32 middle = end_of(line, i, end, '=', '=');
        u32 stop = end_of(line, i, end, '|', '|');
        put_number(length_of_member(line, i, middle));
        put_number(length_of_member(line, middle + 1, stop));
        i = stop + 1;
    }
    for (u32 i = at; i < end;) {
        u32 middle = end_of(line, i, end, '=', '=');
        u32 stop = end_of(line, i, end, '|', '|');
        put_text(line, i, middle);
        put(0);
        put_text(line, middle + 1, stop);
        put(0);
        i = stop + 1;
    }
}

// The numbers that the words of a line stand for, from a place on; how many there are.
static u64 a[12];

static u32 numbers_of(const char *line, u32 at, u32 size) {
    u64 *numbers = a;
    u32 n = 0;
    while (at < size && n < 10) {
        char c = line[at];
        if (c == ' ') {
            at++;
        } else if (c == '"' || c == '[') {
            u32 end = end_of(line, at + 1, size, c == '"' ? '"' : ']', c == '"' ? '"' : ']');
            u32 begin = arena_used;
            if (c == '"') {
                put_text(line, at + 1, end);
            } else {
                put_pairs(line, at + 1, end);
            }
            numbers[n++] = (u32)(arena + begin);
            numbers[n++] = arena_used - begin;
            at = end + 1;
        } else if (c == '*') {
            at++;
            numbers[n++] = (u32)(slots + number_of(line, &at, size));
        } else if (c == '=') {
            at++;
            numbers[n++] = slots[number_of(line, &at, size)];
        } else if (c == '-') {
            at++;
            numbers[n++] = -number_of(line, &at, size);
        } else if (c >= '0' && c <= '9') {
            numbers[n++] = number_of(line, &at, size);
        } else if (line[at + 1] == '*') {
            at += 2;
            u32 count = number_of(line, &at, size);
            u64 eight = (u8)c * 0x0101010101010101ull;
#ifdef BIG
            if (count > 131072) {
                if (large_of != c) {
                    large_used = 0;
                }
                for (; large_used < count && large_used < LARGE; large_used += 8) {
                    *(u64 *)(large + large_used) = eight;
                }
                large_of = c;
                numbers[n++] = (u32)large;
                numbers[n++] = count;
                continue;
            }
#endif
            arena_used = (arena_used + 7) & ~7u;
            numbers[n++] = (u32)(arena + arena_used);
            numbers[n++] = count;
            for (u32 i = 0; i < count && arena_used + i + 8 <= ARENA; i += 8) {
                *(u64 *)(arena + arena_used + i) = eight;
            }
            arena_used += count;
        } else if (c == 'i') {
            numbers[n++] = context;
            at += 2;
        } else if (c == 'e') {
            u64 end = (u64)__builtin_wasm_memory_size(0) * 65536;
            at += 3;
            if (at < size && line[at] == '-') {
                at++;
                end -= number_of(line, &at, size);
            } else if (at < size && line[at] == '+') {
                at++;
                end += number_of(line, &at, size);
            }
            numbers[n++] = end;
        } else {
            at = size;
        }
    }
    return n;
}

// ---- calls

#define A(i) ((u32)a[i])
// run.py takes each call's letter from here
#define CALL(letter, name, made) \
    case letter: \
        return made;
#define DO(letter, name) case letter:

// Makes the call of this letter.
static u32 made(char letter) {
    switch (letter) {
        CALL('0', log, proxy_log(A(0), A(1), A(2)))
        CALL('1', get_log_level, proxy_get_log_level(A(0)))
        CALL('2', get_current_time_nanoseconds, proxy_get_current_time_nanoseconds(A(0)))
        CALL('3', set_tick_period_milliseconds, proxy_set_tick_period_milliseconds(A(0)))
        CALL('4', set_effective_context, proxy_set_effective_context(A(0)))
        CALL('5', done, proxy_done())
        CALL('6', get_buffer_bytes, proxy_get_buffer_bytes(A(0), A(1), A(2), A(3), A(4)))
        CALL('7', get_buffer_status, proxy_get_buffer_status(A(0), A(1), A(2)))
        CALL('8', set_buffer_bytes, proxy_set_buffer_bytes(A(0), A(1), A(2), A(3), A(4)))
        CALL('9', get_header_map_pairs, proxy_get_header_map_pairs(A(0), A(1), A(2)))
        CALL('A', set_header_map_pairs, proxy_set_header_map_pairs(A(0), A(1), A(2)))
        CALL('B', get_header_map_size, proxy_get_header_map_size(A(0), A(1)))
        CALL('C', get_header_map_value, proxy_get_header_map_value(A(0), A(1), A(2), A(3), A(4)))
        CALL('D', add_header_map_value, proxy_add_header_map_value(A(0), A(1), A(2), A(3), A(4)))
        CALL('E', replace_header_map_value, proxy_replace_header_map_value(A(0), A(1), A(2), A(3), A(4)))
        CALL('F', remove_header_map_value, proxy_remove_header_map_value(A(0), A(1), A(2)))
        CALL('G', continue_stream, proxy_continue_stream(A(0)))
        CALL('H', close_stream, proxy_close_stream(A(0)))
        CALL('I', send_local_response, proxy_send_local_response(A(0), A(1), A(2), A(3), A(4), A(5), A(6), A(7)))
        CALL('J', get_shared_data, proxy_get_shared_data(A(0), A(1), A(2), A(3), A(4)))
        CALL('K', set_shared_data, proxy_set_shared_data(A(0), A(1), A(2), A(3), A(4)))
        CALL('L', register_shared_queue, proxy_register_shared_queue(A(0), A(1), A(2)))
        CALL('M', resolve_shared_queue, proxy_resolve_shared_queue(A(0), A(1), A(2), A(3), A(4)))
        CALL('N', dequeue_shared_queue, proxy_dequeue_shared_queue(A(0), A(1), A(2)))
        CALL('O', enqueue_shared_queue, proxy_enqueue_shared_queue(A(0), A(1), A(2)))
        CALL('P', get_property, proxy_get_property(A(0), A(1), A(2), A(3)))
        CALL('Q', set_property, proxy_set_property(A(0), A(1), A(2), A(3)))
        CALL('R', define_metric, proxy_define_metric(A(0), A(1), A(2), A(3)))
        CALL('S', increment_metric, proxy_increment_metric(A(0), a[1]))
        CALL('T', record_metric, proxy_record_metric(A(0), a[1]))
        CALL('U', get_metric, proxy_get_metric(A(0), A(1)))
        CALL('V', some_other_call, proxy_some_other_call(A(0), a[1]))
        CALL('W', fd_write, fd_write(A(0), A(1), A(2), A(3)))
        CALL('X', clock_time_get, clock_time_get(A(0), a[1], A(2)))
        CALL('Y', random_get, random_get(A(0), A(1)))
        CALL('Z', environ_get, environ_get(A(0), A(1)))
        CALL('a', args_get, args_get(A(0), A(1)))
        CALL('b', environ_sizes_get, environ_sizes_get(A(0), A(1)))
        CALL('c', args_sizes_get, args_sizes_get(A(0), A(1)))
        CALL('d', fd_close, fd_close(A(0)))
        CALL('e', proc_exit, (proc_exit(A(0)), 0))
        CALL('f', http_call, proxy_http_call(A(0), A(1), A(2), A(3), A(4), A(5), A(6), A(7), A(8), A(9)))
    }
    return 999;
}

// ---- statements

// A statement is a letter, its length in four hexadecimal digits, and then its text, which begins with its name.
static void statement(char letter, const char *line, u32 size) {
    u32 at = 0, times = 1, repeated = 0, mark = arena_used;
    if (letter == '*') {
        // times N CALL ..
        letter = line[0];
        at = 1;
        times = number_of(line, &at, size);
        at++;
        repeated = 1;
    }
    const char *word = line + at;
    while (at < size && line[at] != ' ') {
        at++;
    }
    u32 length = line + at - word;
    switch (letter) {
        DO('!', trap)
        __builtin_trap();
        DO('~', forever)
        for (;;) {
            __asm__ volatile("");
        }
        DO('=', fresh)
        used = kept;
        return;
        DO('<', return)
        numbers_of(line, at, size);
        answer = A(0);
        return;
        DO('>', set) {
            u32 n = numbers_of(line, at, size);
            for (u32 i = 1; i < n; i++) {
                slots[A(0) + i - 1] = A(i);
            }
            return;
        }
        DO('(', args)
        say(word, length);
        say_byte(' ');
        say_number(context);
        for (u32 i = 0; i < arguments_used; i++) {
            say_byte(' ');
            say_number(arguments[i]);
        }
        break;
        DO(')', show)
        numbers_of(line, at, size);
        say(word, length);
        say_byte(' ');
        say_number(slots[A(0)]);
        break;
        DO('+', show8)
        numbers_of(line, at, size);
        say(word, length);
        say_byte(' ');
        say_number(*(u64 *)(slots + A(0)));
        break;
        DO('-', text) {
            numbers_of(line, at, size);
            say(word, length);
            say_byte(' ');
            u32 n = slots[A(0) + 1];
            say((const char *)slots[A(0)], n > 512 ? 512 : n);
            break;
        }
        DO('.', hex)
        numbers_of(line, at, size);
        say(word, length);
        say_byte(' ');
        for (u32 i = 0; i < A(1); i++) {
            u8 byte = ((u8 *)A(0))[i];
            say_byte("0123456789abcdef"[byte >> 4]);
            say_byte("0123456789abcdef"[byte & 15]);
        }
        break;
        DO('/', pairs) {
            // the pairs of a serialised map whose place and size stand in two slots
            numbers_of(line, at, size);
            say(word, length);
            u32 *list = (u32 *)slots[A(0)];
            const char *text = (const char *)(list + 1 + 2 * list[0]);
            for (u32 i = 0; i < list[0]; i++) {
                say_byte(i ? '|' : ' ');
                say(text, list[1 + 2 * i]);
                say_byte('=');
                say(text + list[1 + 2 * i] + 1, list[2 + 2 * i]);
                text += list[1 + 2 * i] + list[2 + 2 * i] + 2;
            }
            break;
        }
        default: {
            u32 statuses[8], counts[8], runs = 0;
            for (u32 i = 1; i <= times; i++) {
                counter = i;
                arena_used = mark;
                numbers_of(line, at, size);
                u32 status = made(letter);
                if (runs && statuses[runs - 1] == status) {
                    counts[runs - 1]++;
                } else if (runs < 8) {
                    statuses[runs] = status;
                    counts[runs++] = 1;
                }
            }
            say(word, length);
            for (u32 i = 0; i < runs; i++) {
                say_byte(' ');
                say_number(statuses[i]);
                if (repeated) {
                    say_byte('*');
                    say_number(counts[i]);
                }
            }
        }
    }
    said();
    arena_used = mark;
}

static u32 has_path(const char *text, u32 size) {
    for (u32 i = 0; i < paths_used; i++) {
        if (paths[i].context == context && paths[i].size == size) {
            u32 same = 1;
            for (u32 k = 0; k < size; k++) {
                same &= paths[i].text[k] == (u8)text[k];
            }
            return same;
        }
    }
    return 0;
}

static u32 four(const char *digits) {
    return digit(digits[0]) << 12 | digit(digits[1]) << 8 | digit(digits[2]) << 4 | digit(digits[3]);
}

// Runs the sections of a callback. A section is the callback's letter, `*` for each of its calls, `#` and a number for the call of this
// number, or `/` and a path for contexts whose request had that path, then `:`, and the length of its statements in four digits.
static void run(char letter, u32 nth) {
    u32 at = 1;
    while (at < program_size) {
        u32 from = at + 1;
        while (program[at] != ':') {
            at++;
        }
        u32 to = at, size = four(program + at + 1);
        at += 5;
        u32 end = at + size;
        u32 runs = program[from - 1] == letter;
        if (runs && program[from] == '/') {
            runs = has_path(program + from, to - from);
        } else if (runs && program[from] == '#') {
            from++;
            runs = number_of(program, &from, to) == nth;
        }
        while (runs && at < end) {
            u32 length = four(program + at + 1);
            statement(program[at], program + at + 5, length);
            at += 5 + length;
        }
        at = end;
    }
}

static void begin(u32 id) {
    used = kept;
    arena_used = 0;
    context = id;
#ifndef PROGRAM
    if (!loaded) {
        static u32 place[2];
        own = 1;
        if (proxy_get_buffer_bytes(6, 0, ROOM, (u32)place, (u32)(place + 1)) == 0) {
            program = (const char *)place[0];
            program_size = place[1];
            kept = used;
            loaded = 1;
        }
        own = 0;
    }
#endif
}

// run.py takes each callback's letter from here
#define AT(letter, name) letter
#define RUN(name, id, first) \
    static u32 nth; \
    begin(id); \
    arguments_used = 0; \
    answer = first; \
    run(name, ++nth);
#define RUN2(name, id, first, x, y) \
    static u32 nth; \
    begin(id); \
    arguments[0] = x; \
    arguments[1] = y; \
    arguments_used = 2; \
    answer = first; \
    run(name, ++nth);
#define RUN1(name, id, first, x) \
    static u32 nth; \
    begin(id); \
    arguments[0] = x; \
    arguments_used = 1; \
    answer = first; \
    run(name, ++nth);

CALLBACK(proxy_abi_version_0_2_1) void proxy_abi_version_0_2_1(void) {}

#ifdef INITIALIZE
CALLBACK(_initialize) void _initialize(void) {
    notify_memory_growth(0);
    RUN(AT('a', initialize), 0, 0)
}
// not called, since there is the one before
CALLBACK(_start) void _start(void) { __builtin_trap(); }
#endif
#ifdef START
CALLBACK(_start) void _start(void) { RUN(AT('b', start), 0, 0) }
#endif

#ifndef NO_ALLOCATOR
CALLBACK(proxy_on_memory_allocate) u32 proxy_on_memory_allocate(u32 size) {
    static u32 nth;
    u32 rounded = (size + 7u) & ~7u;
    u32 at = rounded < size || rounded > sizeof room - used ? 0 : (u32)(room + used);
    if (at) {
        used += rounded;
    }
    if (!own) {
        u32 outer = answer, many = counter;
        answer = at;
        allocating++;
        run(AT('q', allocate), ++nth);
        allocating--;
        at = answer;
        answer = outer;
        counter = many;
    }
    return at;
}
#endif

#ifndef NO_ALLOCATOR
// not called, since there is the other one
CALLBACK(malloc) u32 malloc(u32 size) { __builtin_trap(); }
#endif

CALLBACK(proxy_on_context_create) void proxy_on_context_create(u32 id, u32 parent) { RUN1(AT('c', create), id, 0, parent) }
CALLBACK(proxy_on_vm_start) u32 proxy_on_vm_start(u32 id, u32 size) { RUN1(AT('d', vm_start), id, 1, size) return answer; }
CALLBACK(proxy_on_configure) u32 proxy_on_configure(u32 id, u32 size) { RUN1(AT('e', configure), id, 1, size) return answer; }
CALLBACK(proxy_on_tick) void proxy_on_tick(u32 id) { RUN(AT('f', tick), id, 0) }
CALLBACK(proxy_on_queue_ready) void proxy_on_queue_ready(u32 id, u32 queue) { RUN1(AT('g', queue_ready), id, 0, queue) }

CALLBACK(proxy_on_request_headers) u32 proxy_on_request_headers(u32 id, u32 pairs, u32 end) {
    static u32 nth;
    begin(id);
    static u32 place[2];
    own = 1;
    if (program_size && program[0] == '/' && proxy_get_header_map_value(0, (u32) ":path", 5, (u32)place, (u32)(place + 1)) == 0) {
        struct path *path = paths + paths_used % 64;
        paths_used += paths_used < 63;
        path->context = id;
        path->size = place[1] < 64 ? place[1] : 64;
        for (u32 i = 0; i < path->size; i++) {
            path->text[i] = ((u8 *)place[0])[i];
        }
    }
    own = 0;
    used = kept;
    arguments[0] = pairs;
    arguments[1] = end;
    arguments_used = 2;
    answer = 0;
    run(AT('h', request_headers), ++nth);
    return answer;
}
CALLBACK(proxy_on_response_headers) u32 proxy_on_response_headers(u32 id, u32 pairs, u32 end) {
    RUN2(AT('k', response_headers), id, 0, pairs, end) return answer;
}
#ifndef NO_BODIES
CALLBACK(proxy_on_request_body) u32 proxy_on_request_body(u32 id, u32 size, u32 end) { RUN2(AT('i', request_body), id, 0, size, end) return answer; }
CALLBACK(proxy_on_response_body) u32 proxy_on_response_body(u32 id, u32 size, u32 end) { RUN2(AT('l', response_body), id, 0, size, end) return answer; }
#endif
CALLBACK(proxy_on_request_trailers) u32 proxy_on_request_trailers(u32 id, u32 pairs) { RUN1(AT('j', request_trailers), id, 0, pairs) return answer; }
CALLBACK(proxy_on_response_trailers) u32 proxy_on_response_trailers(u32 id, u32 pairs) { RUN1(AT('m', response_trailers), id, 0, pairs) return answer; }
CALLBACK(proxy_on_http_call_response) void proxy_on_http_call_response(u32 id, u32 call, u32 fields, u32 size, u32 trailers) {
    static u32 nth;
    begin(id);
    arguments[0] = call;
    arguments[1] = fields;
    arguments[2] = size;
    arguments[3] = trailers;
    arguments_used = 4;
    run(AT('r', http_call_response), ++nth);
}
#ifdef STREAMS
CALLBACK(proxy_on_new_connection) u32 proxy_on_new_connection(u32 id) { RUN(AT('w', new_connection), id, 0) return answer; }
CALLBACK(proxy_on_downstream_data) u32 proxy_on_downstream_data(u32 id, u32 size, u32 end) { RUN2(AT('s', downstream_data), id, 0, size, end) return answer; }
CALLBACK(proxy_on_upstream_data) u32 proxy_on_upstream_data(u32 id, u32 size, u32 end) { RUN2(AT('t', upstream_data), id, 0, size, end) return answer; }
CALLBACK(proxy_on_downstream_connection_close) void proxy_on_downstream_connection_close(u32 id, u32 peer) { RUN1(AT('u', downstream_close), id, 0, peer) }
CALLBACK(proxy_on_upstream_connection_close) void proxy_on_upstream_connection_close(u32 id, u32 peer) { RUN1(AT('v', upstream_close), id, 0, peer) }
#endif
CALLBACK(proxy_on_done) u32 proxy_on_done(u32 id) { RUN(AT('n', done), id, 1) return answer; }
CALLBACK(proxy_on_log) void proxy_on_log(u32 id) { RUN(AT('o', log), id, 0) }
CALLBACK(proxy_on_delete) void proxy_on_delete(u32 id) { RUN(AT('p', delete), id, 0) }
