// What the programs here have in common. They are built for wasm32, where each function is exported under its name, and for the machine
// that writes the table of what they give.
typedef signed char i8;
typedef short i16;
typedef int i32;
typedef long long i64;
typedef unsigned char u8;
typedef unsigned int u32;
typedef unsigned long long u64;

#ifdef __wasm__
#define EXPORT __attribute__((visibility("default")))
#else
#define EXPORT
#endif

#define copy __builtin_memcpy
#define move __builtin_memmove
#define fill __builtin_memset
