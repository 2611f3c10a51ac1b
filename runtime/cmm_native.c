/* Runs programs on RISC-V Linux, or under qemu-riscv64, by calls of the system alone. The code and the data of an image stand where docs/ABI.md has them, with a region of zeros.
 *
 * A request is an ECALL, which Linux would take for a call of its own. Before it stands the word that puts its number into register 5 (crates/cmm_select/src/host.rt and
 * crates/cmm_calls/src/asking.rt). So these two words become a call of two words, by register 6, which is scratch, of a page behind the code: that puts the number there too, and leads
 * to cmm_stopped (cmm_enter.S), where the registers are kept, and Cmm_Resume goes on, whose stack and registers cmm_enter had kept.
 */
#include "cmm_enter.h"
#include "cmm_runtime.h"

enum { PAGE = 4096, HEADER = 64 };
/* Words of code: `ecall`, and `li x5, 0`, `auipc x6, 0` and `jalr x6, 0(x6)`, to which numbers are added. */
enum { ECALL = 0x73, LI_5 = 0x293, AUIPC_6 = 0x317, JALR_6_6 = 0x30367 };
enum { OPENAT = 56, CLOSE = 57, LSEEK = 62, READ = 63, WRITE = 64, MUNMAP = 215, MMAP = 222, MPROTECT = 226 };
enum { PROT_READ = 1, PROT_WRITE = 2, PROT_EXEC = 4, MAP_PRIVATE = 2, MAP_FIXED = 16, MAP_ANONYMOUS = 32, AT_FDCWD = -100, SEEK_SET = 0, SEEK_END = 2 };
enum { PUT_BYTE = 1, GET_BYTE = 2, YIELD = 3, STACK_LIMIT = 4, END = 5 };

/* What cmm_enter.S knows of Cmm_Native. */
_Static_assert(offsetof(Cmm_Native, program.registers) == 0 && offsetof(Cmm_Native, program.pc) == 256, "cmm_enter.S has these");
_Static_assert(offsetof(Cmm_Native, own_stack) == sizeof(Cmm_Program) && offsetof(Cmm_Native, was_stopped) == sizeof(Cmm_Program) + 8, "cmm_enter.S has these");
_Static_assert(sizeof(Cmm_Program) == CMM_PROGRAM_SIZE, "cmm_enter.S has this");

extern const uint32_t cmm_request_code[], cmm_request_code_end[];
extern void cmm_enter(Cmm_Native *native);
extern void cmm_stopped(void);

static long call(long number, long a, long b, long c, long d, long e, long f)
{
    register long a7 __asm__("a7") = number;
    register long a0 __asm__("a0") = a;
    register long a1 __asm__("a1") = b;
    register long a2 __asm__("a2") = c;
    register long a3 __asm__("a3") = d;
    register long a4 __asm__("a4") = e;
    register long a5 __asm__("a5") = f;
    __asm__ volatile("ecall" : "+r"(a0) : "r"(a7), "r"(a1), "r"(a2), "r"(a3), "r"(a4), "r"(a5) : "memory");
    return a0;
}

/* ---- Loading */

/* Zeros at this address, or anywhere where it is 0; where they are, or 0 where the system gives none. */
static uint64_t zeros(uint64_t address, uint64_t length)
{
    int kind = MAP_PRIVATE | MAP_ANONYMOUS | (address != 0 ? MAP_FIXED : 0);
    long at = call(MMAP, (long)address, (long)length, PROT_READ | PROT_WRITE, kind, -1, 0);
    return at < 0 && at >= -PAGE ? 0 : (uint64_t)at;
}

/* Whether all of the bytes of an open file were read. */
static bool read_all(long file, uint8_t *to, uint64_t length)
{
    while (length != 0) {
        long taken = call(READ, file, (long)to, (long)length, 0, 0, 0);
        if (taken <= 0)
            return false;
        to += taken;
        length -= (uint64_t)taken;
    }
    return true;
}

Cmm_Result Cmm_ReadFile(const char *path, uint8_t **bytes, size_t *length)
{
    long file = call(OPENAT, AT_FDCWD, (long)path, 0, 0, 0, 0);
    if (file < 0)
        return CMM_FILE_FAULT;
    Cmm_Result result = CMM_FILE_FAULT;
    long end = call(LSEEK, file, 0, SEEK_END, 0, 0, 0);
    if (end >= 0 && call(LSEEK, file, 0, SEEK_SET, 0, 0, 0) == 0) {
        *length = (size_t)end;
        *bytes = (uint8_t *)zeros(0, *length + 1);
        if (*bytes == NULL)
            result = CMM_NO_MEMORY;
        else if (read_all(file, *bytes, *length))
            result = CMM_OK;
        else
            call(MUNMAP, (long)*bytes, end + 1, 0, 0, 0, 0);
    }
    call(CLOSE, file, 0, 0, 0, 0, 0);
    return result;
}

static void copy(uint64_t to, const uint8_t *from, uint64_t length)
{
    for (uint64_t i = 0; i < length; i++)
        ((volatile uint8_t *)to)[i] = from[i];
}

/* The number of the request of which these are the two words, 0 where they are none. */
static uint32_t request_of(const uint32_t *words)
{
    uint32_t number = words[0] >> 20;
    bool puts_number = (words[0] & 0xfffff) == LI_5 && number >= PUT_BYTE && number <= END;
    return puts_number && words[1] == ECALL ? number : 0;
}

/* The two words at an address become a call of what is so far away: `auipc x6, upper` and `jalr x6, lower(x6)`. */
static void lead(uint32_t *words, uint32_t distance)
{
    words[0] = ((distance + 0x800) & 0xfffff000) | AUIPC_6;
    words[1] = distance << 20 | JALR_6_6;
}

/* Each request becomes a call of its place in the page. False where an ECALL stands without the word before it. */
static bool lead_requests(uint64_t length, uint64_t page)
{
    for (uint64_t at = CMM_CODE_BASE; at < CMM_CODE_BASE + length; at += 4) {
        uint32_t *words = (uint32_t *)at, request = at + 4 < CMM_CODE_BASE + length ? request_of(words) : 0;
        if (request != 0)
            lead(words, (uint32_t)(page + 8 * (request - 1) - at));
        else if (words[0] == ECALL)
            return false;
    }
    return true;
}

/* The code of the image, and behind it a page to which each request leads, with the address of `native` at its end. */
static Cmm_Result load_code(Cmm_Native *native)
{
    uint64_t length = native->image.code_length, page = (CMM_CODE_BASE + length + PAGE - 1) / PAGE * PAGE;
    if (zeros(CMM_CODE_BASE, page + PAGE - CMM_CODE_BASE) != CMM_CODE_BASE)
        return CMM_NO_MEMORY;
    copy(CMM_CODE_BASE, native->image.bytes + HEADER, length);
    if (!lead_requests(length, page))
        return CMM_STRANGE_CODE;
    uint64_t size = (uint64_t)((const uint8_t *)cmm_request_code_end - (const uint8_t *)cmm_request_code);
    copy(page, (const uint8_t *)cmm_request_code, size);
    *(uint64_t *)(page + size) = (uint64_t)native;
    if (call(MPROTECT, CMM_CODE_BASE, (long)(page + PAGE - CMM_CODE_BASE), PROT_READ | PROT_EXEC, 0, 0, 0) != 0)
        return CMM_NO_MEMORY;
    __asm__ volatile("fence.i" ::: "memory");
    return CMM_OK;
}

/* The data of the image, and a region of zeros. */
static Cmm_Result load_memory(Cmm_Native *native)
{
    const Cmm_Image *image = &native->image;
    Cmm_Program *program = &native->program;
    if (image->data_length != 0 && zeros(CMM_DATA_BASE, image->data_length) != CMM_DATA_BASE)
        return CMM_NO_MEMORY;
    copy(CMM_DATA_BASE, image->bytes + HEADER + image->code_length, image->data_length);
    if (zeros(CMM_REGION_BASE, CMM_BELOW_STACK + program->stack_size) != CMM_REGION_BASE)
        return CMM_NO_MEMORY;
    program->data = (uint8_t *)CMM_DATA_BASE;
    program->region = (uint8_t *)CMM_REGION_BASE;
    return CMM_OK;
}

/* The registers with which a run begins, and where it does. */
static void begin(Cmm_Native *native)
{
    Cmm_Program *program = &native->program;
    for (unsigned i = 0; i < 32; i++)
        program->registers[i] = 0;
    program->registers[4] = CMM_REGION_BASE;
    program->image = &native->image;
    program->cont.is_set = true;
    program->cont.restores = false;
    program->cont.count = 0;
    program->cont.pc = native->image.start;
    program->cont.frame = CMM_REGION_BASE + CMM_BELOW_STACK + program->stack_size;
    native->was_stopped = (uint64_t)cmm_stopped;
}

Cmm_Result Cmm_Load(Cmm_Native *native, const char *path, uint64_t stack_size, Cmm_Host host)
{
    uint8_t *bytes;
    size_t length;
    Cmm_Result result = Cmm_ReadFile(path, &bytes, &length);
    if (result != CMM_OK)
        return result;
    void *room = (void *)zeros(0, Cmm_ImageRoom(bytes, length));
    if (room == NULL)
        return CMM_NO_MEMORY;
    result = Cmm_ReadImage(&native->image, bytes, length, room);
    if (result != CMM_OK)
        return result;
    if (stack_size % 16 != 0 || stack_size > CMM_MOST_STACK)
        return CMM_BAD_STACK;
    native->host = host;
    native->program.stack_size = stack_size;
    result = load_code(native);
    if (result == CMM_OK)
        result = load_memory(native);
    if (result == CMM_OK)
        begin(native);
    return result;
}

/* ---- Running */

/* Does the request for which the program has stopped: true where it goes on behind it, else the event tells why it does not. */
static bool serve(Cmm_Native *native, Cmm_Event *event)
{
    uint64_t *registers = native->program.registers;
    switch (registers[5]) {
    case PUT_BYTE:
        *event = CMM_OUTPUT_FAULT;
        return native->host.put_byte(native->host.context, (int)(registers[10] & 255));
    case GET_BYTE: {
        int byte = native->host.get_byte(native->host.context);
        *event = CMM_INPUT_FAULT;
        registers[10] = byte < 0 ? UINT64_MAX : (uint64_t)byte;
        return byte >= -1;
    }
    case YIELD:
        *event = CMM_YIELDED;
        return false;
    case STACK_LIMIT:
        *event = CMM_STACK_LIMIT;
        return false;
    default: /* END: the page has no more */
        *event = CMM_ENDED;
        return false;
    }
}

Cmm_Event Cmm_Resume(Cmm_Native *native)
{
    Cmm_Event event;
    if (!Cmm_TakeCont(&native->program))
        return CMM_NOT_SET;
    do
        cmm_enter(native);
    while (serve(native, &event));
    return event;
}

uint64_t Cmm_ResultOf(const Cmm_Native *native)
{
    return native->program.registers[10];
}

/* ---- Standard streams */

bool Cmm_Write(int file, const void *bytes, size_t length)
{
    size_t at = 0;
    while (at < length) {
        long taken = call(WRITE, file, (long)bytes + (long)at, (long)(length - at), 0, 0, 0);
        if (taken <= 0)
            return false;
        at += (size_t)taken;
    }
    return true;
}

bool Cmm_FlushStreams(Cmm_Streams *streams)
{
    if (!Cmm_Write(1, streams->output, streams->written))
        return false;
    streams->written = 0;
    return true;
}

static bool put_byte(void *context, int byte)
{
    Cmm_Streams *streams = context;
    if (streams->written == sizeof streams->output && !Cmm_FlushStreams(streams))
        return false;
    streams->output[streams->written++] = (uint8_t)byte;
    return true;
}

static int get_byte(void *context)
{
    Cmm_Streams *streams = context;
    if (streams->taken == streams->read) {
        if (!Cmm_FlushStreams(streams))
            return -2;
        long count = call(READ, 0, (long)streams->input, sizeof streams->input, 0, 0, 0);
        if (count <= 0)
            return count == 0 ? -1 : -2;
        streams->taken = 0;
        streams->read = (size_t)count;
    }
    return streams->input[streams->taken++];
}

Cmm_Host Cmm_StreamsHost(Cmm_Streams *streams)
{
    return (Cmm_Host){get_byte, put_byte, streams};
}

/* ---- What a C compiler may call, where there is no library. */

__attribute__((weak, optimize("no-tree-loop-distribute-patterns"))) void *memset(void *to, int byte, size_t count)
{
    for (size_t i = 0; i < count; i++)
        ((uint8_t *)to)[i] = (uint8_t)byte;
    return to;
}

__attribute__((weak, optimize("no-tree-loop-distribute-patterns"))) void *memcpy(void *restrict to, const void *restrict from, size_t count)
{
    for (size_t i = 0; i < count; i++)
        ((uint8_t *)to)[i] = ((const uint8_t *)from)[i];
    return to;
}
