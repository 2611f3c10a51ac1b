/* Runs the ELF file of an image on RISC-V Linux, or under qemu-riscv64: start FILE.
 *
 * The two segments of the file and a region are mapped where docs/ABI.md has them, and the registers are those with which a run begins. A request is an
 * ECALL, which Linux would take for a call of its own; so each becomes a jump by register 6 to a page behind the code, which leads here. Input, output, the
 * lines at the end and the exit statuses are those of `cmm run` (docs/ERRORS.md), but that no line is written of a yield, which ends the run.
 *
 * Only a file that `segments` takes is to be given: of the file no more is tested than is used.
 */
#include "start.h"

typedef unsigned long u64;
typedef unsigned int u32;
typedef unsigned short u16;
typedef unsigned char u8;

/* "ELF Header" and "Program Header" of the ELF specification. */
struct elf_header {
    u8 e_ident[16];
    u16 e_type, e_machine;
    u32 e_version;
    u64 e_entry, e_phoff, e_shoff;
    u32 e_flags;
    u16 e_ehsize, e_phentsize, e_phnum, e_shentsize, e_shnum, e_shstrndx;
};

struct program_header {
    u32 p_type, p_flags;
    u64 p_offset, p_vaddr, p_paddr, p_filesz, p_memsz, p_align;
};

struct file {
    struct elf_header header;
    struct program_header code, data;
};

enum { EM_RISCV = 243, PAGE = 4096, REACH = 0x100000, ECALL = 0x73 };
enum { READ = 63, WRITE = 64, OPENAT = 56, EXIT = 93, MPROTECT = 226, MMAP = 222 };
enum { PROT_READ = 1, PROT_WRITE = 2, PROT_EXEC = 4, MAP_PRIVATE = 2, MAP_FIXED = 16, MAP_ANONYMOUS = 32, AT_FDCWD = -100 };
/* Exit statuses of `cmm run`. */
enum { USAGE = 2, STOPPED = 5, STACK_ENDED = 6, TRAP = 8, FILE_FAULT = 9, INPUT_FAULT = 10, OUTPUT_FAULT = 11, MEMORY = 12 };

extern const u32 request_code[], first_code[], request_code_end[];

static u8 output[65536], input[65536];
static u64 in_output, input_taken, input_read;

static long call(long number, long a, long b, long c, long d, long e, long f)
{
    register long a7 asm("a7") = number;
    register long a0 asm("a0") = a;
    register long a1 asm("a1") = b;
    register long a2 asm("a2") = c;
    register long a3 asm("a3") = d;
    register long a4 asm("a4") = e;
    register long a5 asm("a5") = f;
    asm volatile("ecall" : "+r"(a0) : "r"(a7), "r"(a1), "r"(a2), "r"(a3), "r"(a4), "r"(a5) : "memory");
    return a0;
}

static void __attribute__((noreturn)) leave(int status)
{
    for (;;)
        call(EXIT, status, 0, 0, 0, 0, 0);
}

/* Whether all of the bytes were written. */
static int written(int to, const u8 *bytes, u64 count)
{
    while (count) {
        long taken = call(WRITE, to, (long)bytes, count, 0, 0, 0);
        if (taken <= 0)
            return 0;
        bytes += taken;
        count -= taken;
    }
    return 1;
}

static void flush(void)
{
    if (!written(1, output, in_output))
        leave(OUTPUT_FAULT);
    in_output = 0;
}

/* Ends with a line on standard error. */
static void __attribute__((noreturn)) end(const char *line, int status)
{
    u64 length = 0;
    while (line[length])
        length++;
    flush();
    leave(written(2, (const u8 *)line, length) ? status : OUTPUT_FAULT);
}

static void __attribute__((noreturn)) end_with_result(u64 result)
{
    char line[] = "result 00000000000000000000\n";
    char *digit = line + 27;
    line[27] = '\n';
    do {
        *--digit = '0' + result % 10;
        result /= 10;
    } while (result);
    char *front = digit - 7;
    for (int i = 0; i < 7; i++)
        front[i] = "result "[i];
    end(front, 0);
}

static u64 next_byte(void)
{
    if (input_taken == input_read) {
        long count;
        flush();
        count = call(READ, 0, (long)input, sizeof input, 0, 0, 0);
        if (count < 0)
            end("input fault\n", INPUT_FAULT);
        if (count == 0)
            return -1UL;
        input_taken = 0;
        input_read = count;
    }
    return input[input_taken++];
}

/* Does what register 5 asks for, and gives register 10. */
u64 serve(u64 request, u64 value)
{
    switch (request) {
    case PUT_BYTE:
        if (in_output == sizeof output)
            flush();
        output[in_output++] = value;
        return value;
    case GET_BYTE:
        return next_byte();
    case YIELD:
        end("stopped\n", STOPPED);
    case STACK_LIMIT:
        end("stack limit\n", STACK_ENDED);
    case END:
        end_with_result(value);
    }
    end("trap 6\n", TRAP);
}

/* Memory at this address, with bytes of the file or with zeros. */
static void map(u64 address, u64 length, int file, u64 offset)
{
    int kind = MAP_PRIVATE | MAP_FIXED | (file < 0 ? MAP_ANONYMOUS : 0);
    if (length && call(MMAP, address, length, PROT_READ | PROT_WRITE, kind, file, offset) != (long)address)
        end("out of memory\n", MEMORY);
}

/* A jump from one address to another, at most REACH away, that leaves the address behind it in register `link`. */
static u32 jump(u64 from, u64 to, u32 link)
{
    u32 distance = to - from;
    return (distance >> 20 & 1) << 31 | (distance >> 1 & 0x3ff) << 21 | (distance >> 11 & 1) << 20 | (distance >> 12 & 0xff) << 12 | link << 7 | 0x6f;
}

/* Each ECALL becomes a jump to `requests`. */
static void lead_requests(u64 length, u64 requests)
{
    for (u64 at = CODE_BASE; at < CODE_BASE + length; at += 4) {
        u32 *word = (u32 *)at;
        if (*word != ECALL)
            continue;
        if (requests - at >= REACH)
            end("code too long\n", FILE_FAULT);
        *word = jump(at, requests, 6);
    }
}

/* The page behind the code: where requests go, and the first instructions of a run, whose address is the answer. */
static u64 lay_requests(u64 page, u64 entry)
{
    u32 *to = (u32 *)page;
    const u32 *from = request_code;
    while (from < request_code_end)
        *to++ = *from++;
    if (page - entry >= REACH)
        end("code too long\n", FILE_FAULT);
    *to = jump((u64)to, entry, 0);
    return page + (first_code - request_code) * 4;
}

/* Loads the file that the first argument names, and gives the address at which to begin. */
u64 load(long *arguments)
{
    struct file f;
    if (arguments[0] != 2)
        end("usage\n", USAGE);
    long file = call(OPENAT, AT_FDCWD, arguments[2], 0, 0, 0, 0);
    if (file < 0 || call(READ, file, (long)&f, sizeof f, 0, 0, 0) != sizeof f || f.header.e_machine != EM_RISCV)
        end("file fault\n", FILE_FAULT);
    u64 length = f.code.p_filesz;
    u64 page = (CODE_BASE + length + PAGE - 1) / PAGE * PAGE;
    map(CODE_BASE, length, file, f.code.p_offset);
    map(page, PAGE, -1, 0);
    map(DATA_BASE, f.data.p_filesz, file, f.data.p_offset);
    map(REGION_BASE, BELOW_STACK + STACK_SIZE, -1, 0);
    lead_requests(length, page);
    u64 first = lay_requests(page, f.header.e_entry);
    if (call(MPROTECT, CODE_BASE, page + PAGE - CODE_BASE, PROT_READ | PROT_EXEC, 0, 0, 0))
        end("out of memory\n", MEMORY);
    asm volatile("fence.i" ::: "memory");
    return first;
}
