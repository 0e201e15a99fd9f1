/* A plain interpreter to measure beside tilesim. It runs the one thread of a static image of RV64IM, laid out as
 * docs/IMAGES.md says, and decodes each instruction as it meets it, over one array of bytes. It proves nothing and
 * refuses hardly anything: no address is tested. The host is little-endian, as the machine is.
 *
 *     plain IMAGE
 *
 * prints the program's output and, on standard error, how many instructions were executed. It ends with the
 * program's code, or with 1 where it comes upon what it doesn't know. */

#include <stdint.h>
#include <stdio.h>
#include <stdlib.h>
#include <string.h>

enum { MEMORY = 1 << 24, PAGE = 4096, HEAP = 1 << 20, STACK = 1 << 16 };

static uint8_t memory[MEMORY]; /* from address 0 on */
static uint64_t x[32];

static _Noreturn void stop(const char *what, uint64_t where) {
    fprintf(stderr, "plain: %s at 0x%llx\n", what, (unsigned long long)where);
    exit(1);
}

/* The number of so many bytes. */
static inline uint64_t get(const uint8_t *from, unsigned bytes) {
    uint64_t number = 0;
    memcpy(&number, from, bytes);
    return number;
}

/* Puts the image's segments in their places, and sp below the end of the first stack; answers the entry. */
static uint64_t load_image(const char *name) {
    static uint8_t image[MEMORY];
    FILE *file = fopen(name, "rb");
    size_t size = file ? fread(image, 1, sizeof image, file) : 0;
    const uint8_t *header = image + get(image + 32, 8);
    uint64_t end = 0;
    for (uint64_t left = get(image + 56, 2); left > 0; left--, header += 56) {
        if (get(header, 4) != 1) /* PT_LOAD */
            continue;
        uint64_t offset = get(header + 8, 8), address = get(header + 16, 8);
        uint64_t in_file = get(header + 32, 8), in_memory = get(header + 40, 8);
        if (offset + in_file > size || address + in_memory > MEMORY - HEAP - STACK - 2 * PAGE)
            stop("a segment that doesn't fit", address);
        memcpy(memory + address, image + offset, in_file);
        if (end < address + in_memory)
            end = address + in_memory;
    }
    if (end == 0)
        stop("no image", 0);
    uint64_t heap = (end + PAGE - 1) / PAGE * PAGE;
    x[2] = heap + HEAP + PAGE + STACK - 64;
    return get(image + 24, 8);
}

/* The numbers in an instruction, extended by their sign. */
static inline uint64_t immediate(uint32_t code) { return (uint64_t)((int32_t)code >> 20); }
static inline uint64_t upper(uint32_t code) { return (uint64_t)(int32_t)(code & 0xfffff000); }
static inline uint64_t branch_offset(uint32_t code) {
    return (immediate(code) & ~0xfffull) | (code << 4 & 0x800) | (code >> 20 & 0x7e0) | (code >> 7 & 0x1e);
}
static inline uint64_t jump_offset(uint32_t code) {
    return (immediate(code) & ~0xfffffull) | (code & 0xff000) | (code >> 9 & 0x800) | (code >> 20 & 0x7fe);
}

/* An operation on 64 bits; its number is funct7 * 8 + funct3. */
static inline uint64_t operate(unsigned operation, uint64_t a, uint64_t b, uint64_t pc) {
    int64_t signed_a = (int64_t)a, signed_b = (int64_t)b;
    switch (operation) {
    case 0x000: return a + b;
    case 0x001: return a << (b & 63);
    case 0x002: return signed_a < signed_b;
    case 0x003: return a < b;
    case 0x004: return a ^ b;
    case 0x005: return a >> (b & 63);
    case 0x006: return a | b;
    case 0x007: return a & b;
    case 0x100: return a - b;
    case 0x105: return (uint64_t)(signed_a >> (b & 63));
    case 0x008: return a * b;
    case 0x009: return (uint64_t)((__int128)signed_a * signed_b >> 64);
    case 0x00a: return (uint64_t)((__int128)signed_a * b >> 64);
    case 0x00b: return (uint64_t)((unsigned __int128)a * b >> 64);
    case 0x00c: return b == 0 ? UINT64_MAX : b == UINT64_MAX ? -a : (uint64_t)(signed_a / signed_b);
    case 0x00d: return b == 0 ? UINT64_MAX : a / b;
    case 0x00e: return b == 0 ? a : b == UINT64_MAX ? 0 : (uint64_t)(signed_a % signed_b);
    case 0x00f: return b == 0 ? a : a % b;
    default: stop("an unknown operation", pc);
    }
}

/* An operation on the low 32 bits, whose result is extended by its sign. */
static inline uint64_t operate_word(unsigned operation, uint32_t a, uint32_t b, uint64_t pc) {
    int32_t signed_a = (int32_t)a, signed_b = (int32_t)b;
    uint32_t result;
    switch (operation) {
    case 0x000: result = a + b; break;
    case 0x001: result = a << (b & 31); break;
    case 0x005: result = a >> (b & 31); break;
    case 0x100: result = a - b; break;
    case 0x105: result = (uint32_t)(signed_a >> (b & 31)); break;
    case 0x008: result = a * b; break;
    case 0x00c: result = b == 0 ? UINT32_MAX : b == UINT32_MAX ? -a : (uint32_t)(signed_a / signed_b); break;
    case 0x00d: result = b == 0 ? UINT32_MAX : a / b; break;
    case 0x00e: result = b == 0 ? a : b == UINT32_MAX ? 0 : (uint32_t)(signed_a % signed_b); break;
    case 0x00f: result = b == 0 ? a : a % b; break;
    default: stop("an unknown operation", pc);
    }
    return (uint64_t)(int32_t)result;
}

static inline uint64_t load(unsigned width, const uint8_t *from) {
    switch (width) {
    case 0: return (uint64_t)(int8_t)get(from, 1);
    case 1: return (uint64_t)(int16_t)get(from, 2);
    case 2: return (uint64_t)(int32_t)get(from, 4);
    case 4: return get(from, 1);
    case 5: return get(from, 2);
    case 6: return get(from, 4);
    default: return get(from, 8);
    }
}

static inline void store(unsigned width, uint8_t *to, uint64_t number) {
    switch (width) {
    case 0: memcpy(to, &number, 1); break;
    case 1: memcpy(to, &number, 2); break;
    case 2: memcpy(to, &number, 4); break;
    default: memcpy(to, &number, 8); break;
    }
}

static inline int is_taken(unsigned condition, uint64_t a, uint64_t b) {
    switch (condition) {
    case 0: return a == b;
    case 1: return a != b;
    case 4: return (int64_t)a < (int64_t)b;
    case 5: return (int64_t)a >= (int64_t)b;
    case 6: return a < b;
    default: return a >= b;
    }
}

int main(int words, char **word) {
    if (words != 2) {
        fprintf(stderr, "usage: plain IMAGE\n");
        return 1;
    }
    uint64_t pc = load_image(word[1]);
    for (unsigned long long count = 1;; count++) {
        uint32_t code = (uint32_t)get(memory + pc, 4);
        unsigned rd = code >> 7 & 31, funct3 = code >> 12 & 7, funct7 = code >> 25;
        uint64_t a = x[code >> 15 & 31], b = x[code >> 20 & 31], next = pc + 4;
        switch (code & 127) {
        case 0x37: x[rd] = upper(code); break; /* lui */
        case 0x17: x[rd] = pc + upper(code); break; /* auipc */
        case 0x6f: next = pc + jump_offset(code), x[rd] = pc + 4; break; /* jal */
        case 0x67: next = (a + immediate(code)) & ~1ull, x[rd] = pc + 4; break; /* jalr */
        case 0x63: /* branches */
            if (is_taken(funct3, a, b))
                next = pc + branch_offset(code);
            break;
        case 0x03: x[rd] = load(funct3, memory + a + immediate(code)); break;
        case 0x23: store(funct3, memory + a + ((immediate(code) & ~31ull) | rd), b); break;
        case 0x13: /* addi and its kin */
            b = immediate(code);
            funct7 = funct3 == 5 ? funct7 & 0x20 : 0; /* of these, shifts to the right alone have two kinds */
            /* fall through */
        case 0x33: x[rd] = operate(funct7 * 8 + funct3, a, b, pc); break;
        case 0x1b: /* addiw and its kin */
            b = immediate(code);
            funct7 = funct3 == 5 ? funct7 & 0x20 : 0;
            /* fall through */
        case 0x3b: x[rd] = operate_word(funct7 * 8 + funct3, (uint32_t)a, (uint32_t)b, pc); break;
        case 0x0f: break; /* fence */
        case 0x73: /* ecall */
            if (code == 0x73 && x[17] == 64) { /* write */
                x[10] = fwrite(memory + x[11], 1, x[12], stdout);
            } else if (code == 0x73 && (x[17] == 93 || x[17] == 94)) { /* exit and exit_group */
                fprintf(stderr, "instr %llu\n", count);
                return (int)(x[10] & 255);
            } else {
                stop("an unknown call", pc);
            }
            break;
        default: stop("an unknown instruction", pc);
        }
        x[0] = 0;
        pc = next;
    }
}
