/* The run-time interface in C over snapshots, on any little-endian machine: what a sanitizer watches, and tools/native.py compares.
 *
 * A case on standard input is three lengths of 4 bytes, and so many bytes of an image, of a snapshot and of a script. What comes of it on standard output is five numbers of
 * 4 bytes, and behind them three texts: the exit status and the length of what `cmm walk` writes of the image and the snapshot, on both streams; the exit status with
 * which the run ends at this yield where the script answers it, 0 where it goes on, and the length of the lines of the log; and the length of the snapshot afterwards.
 */
#include <stdio.h>
#include <stdlib.h>
#include <string.h>

#include "client_script.h"

enum { GOES_ON = 0, BAD_IMAGE = 4, STOPPED_RUN = 5, BAD_SNAPSHOT = 13, BAD_SCRIPT = 14, TORN_RUN = 15 };
enum { IS_CUT = 70, OTHER_HEADER = 71, BAD_FIELD = 72, MORE_BYTES = 74, NO_SNAPSHOT = 75 };
enum { HEADER = 64, HEADER_AT = 8, STACK_AT = 72, REGISTERS_AT = 80, PC_AT = 336, DATA_AT = 344 };

/* Bytes in memory of just their length, so that a sanitizer knows where they end. */
struct bytes {
    uint8_t *at;
    uint32_t length;
};

static struct bytes text; /* what has been written since it was cleared */

static bool keep(const char *bytes, size_t length)
{
    text.at = realloc(text.at, text.length + length + 1);
    memcpy(text.at + text.length, bytes, length);
    text.length += (uint32_t)length;
    return true;
}

static struct lines lines = {.write = keep};
static struct script script;

static void read_or_exit(void *to, size_t length)
{
    if (fread(to, 1, length, stdin) != length)
        exit(1);
}

static struct bytes read_part(uint32_t length)
{
    struct bytes found = {malloc(length), length};
    read_or_exit(found.at, length);
    return found;
}

static void write_part(const struct bytes *part, uint32_t length)
{
    if (length != 0)
        fwrite(part->at, 1, length, stdout);
}

static uint64_t number_at(const uint8_t *at)
{
    uint64_t value;
    memcpy(&value, at, sizeof value);
    return value;
}

/* The rule that a snapshot of a run of the image breaks first, and the field; 0 where it breaks none. */
static unsigned snapshot_fault(const Cmm_Image *image, const struct bytes *snapshot, uint64_t *offset)
{
    static const uint32_t fields[][2] = {{0, 4}, {4, 4}, {HEADER_AT, HEADER}, {STACK_AT, 8}, {REGISTERS_AT, 8}};
    for (size_t i = 0; i < sizeof fields / sizeof fields[0]; i++) {
        const uint8_t *at = snapshot->at + (*offset = fields[i][0]);
        if (snapshot->length < fields[i][0] + fields[i][1])
            return IS_CUT;
        if ((i == 0 && memcmp(at, "CMMS", 4) != 0) || (i == 1 && memcmp(at, "\1\0\0\0", 4) != 0))
            return NO_SNAPSHOT;
        if (i == 2 && memcmp(at, image->bytes, HEADER) != 0)
            return OTHER_HEADER;
        if ((i == 3 && (number_at(at) % 16 != 0 || number_at(at) > CMM_MOST_STACK)) || (i == 4 && number_at(at) != 0))
            return BAD_FIELD;
    }
    for (*offset = REGISTERS_AT + 8; *offset < DATA_AT; *offset += 8)
        if (snapshot->length < *offset + 8)
            return IS_CUT;
    uint64_t region = DATA_AT + image->data_length, end = region + CMM_BELOW_STACK + number_at(snapshot->at + STACK_AT);
    *offset = snapshot->length < region ? DATA_AT : snapshot->length < end ? region : end;
    return snapshot->length < end ? IS_CUT : snapshot->length > end ? MORE_BYTES : 0;
}

/* A part of the snapshot, in memory of its own. */
static uint8_t *part(const struct bytes *snapshot, uint64_t at, uint64_t length)
{
    uint8_t *found = malloc(length);
    memcpy(found, snapshot->at + at, length);
    return found;
}

static Cmm_Program program_of(const Cmm_Image *image, const struct bytes *snapshot)
{
    Cmm_Program program = {.image = image, .stack_size = number_at(snapshot->at + STACK_AT), .pc = number_at(snapshot->at + PC_AT)};
    memcpy(program.registers, snapshot->at + REGISTERS_AT, sizeof program.registers);
    program.data = part(snapshot, DATA_AT, image->data_length);
    program.region = part(snapshot, DATA_AT + image->data_length, CMM_BELOW_STACK + program.stack_size);
    return program;
}

/* Puts the program back into the snapshot. */
static void keep_program(struct bytes *snapshot, const Cmm_Program *program)
{
    uint64_t data_length = program->image->data_length;
    memcpy(snapshot->at + REGISTERS_AT, program->registers, sizeof program->registers);
    memcpy(snapshot->at + PC_AT, &program->pc, sizeof program->pc);
    memcpy(snapshot->at + DATA_AT, program->data, data_length);
    memcpy(snapshot->at + DATA_AT + data_length, program->region, CMM_BELOW_STACK + program->stack_size);
}

/* The line of a rule that is broken. */
static uint32_t put_fault(const char *what, unsigned rule, const char *where, uint64_t place, uint32_t status)
{
    put_text(&lines, what);
    put_number(&lines, rule);
    put_text(&lines, where);
    put_number(&lines, place);
    put_text(&lines, "\n");
    return status;
}

static uint32_t put_torn(uint64_t frame, uint64_t address)
{
    put_text(&lines, "torn ");
    put_address(&lines, frame);
    put_text(&lines, " ");
    put_address(&lines, address);
    put_text(&lines, "\n");
    return TORN_RUN;
}

/* Every call that the scripts do not come to, on each activation, for the sanitizer's sake. */
static void ask_all(Cmm_Program *program)
{
    Cmm_Activation a;
    uint64_t address, sum = 0;
    void *place;
    for (Cmm_Result result = Cmm_FirstActivation(program, &a); result == CMM_OK; result = Cmm_NextActivation(&a)) {
        for (unsigned i = 0; Cmm_FindStackLabel(&a, i, &address) == CMM_OK; i++)
            sum += Cmm_FindBytes(program, address, 0) != NULL;
        for (unsigned i = 0; i < Cmm_LocalVarCount(&a); i++)
            if (Cmm_FindLocalVar(&a, i, &place) == CMM_OK)
                sum += number_at(place);
        sum += Cmm_SpanCount(&a);
    }
    Cmm_FindBreak(program, NULL, &sum, &address);
}

/* The walk, as `cmm walk` has it; its exit status. */
static uint32_t walk(Cmm_Program *program)
{
    uint64_t frame, address;
    ask_all(program);
    return write_walk(program, &lines, &frame, &address) == IS_TORN ? put_torn(frame, address) : 0;
}

/* The yield, as the script answers it. */
static uint32_t answer(Cmm_Program *program, const struct bytes *bytes)
{
    uint64_t frame, address;
    unsigned rule, line;
    memset(&script, 0, sizeof script);
    if (!read_script(&script, (const char *)bytes->at, bytes->length, &rule, &line))
        return put_fault("bad script ", rule, " line ", line, BAD_SCRIPT);
    switch (answer_yield(&script, program, &lines, &frame, &address)) {
    case RESUMES:
        Cmm_TakeCont(program);
        return GOES_ON;
    case IS_TORN:
        return put_torn(frame, address);
    default:
        return STOPPED_RUN;
    }
}

/* What has been written, which is cleared. */
static struct bytes taken(void)
{
    flush_lines(&lines);
    struct bytes found = text;
    text = (struct bytes){NULL, 0};
    return found;
}

/* What comes of a case. */
struct told {
    uint32_t walk_status, walk_length, status, log_length, snapshot_length;
};

/* The walk and the answer of a case whose image has been read. */
static struct told answer_case(const Cmm_Image *image, struct bytes *snapshot, const struct bytes *script_bytes, struct bytes *walked, struct bytes *log)
{
    struct told told = {0};
    uint64_t offset = 0;
    unsigned rule = snapshot_fault(image, snapshot, &offset);
    if (rule != 0) {
        told.walk_status = put_fault("bad snapshot ", rule, " at ", offset, BAD_SNAPSHOT);
        *walked = taken();
        return told;
    }
    Cmm_Program program = program_of(image, snapshot);
    told.walk_status = walk(&program);
    *walked = taken();
    told.status = answer(&program, script_bytes);
    *log = taken();
    keep_program(snapshot, &program);
    told.snapshot_length = snapshot->length;
    free(program.data);
    free(program.region);
    return told;
}

int main(void)
{
    uint32_t lengths[3];
    while (fread(lengths, sizeof lengths, 1, stdin) == 1) {
        struct bytes image_bytes = read_part(lengths[0]), snapshot = read_part(lengths[1]), script_bytes = read_part(lengths[2]), walked = {0}, log = {0};
        void *room = calloc(1, Cmm_ImageRoom(image_bytes.at, image_bytes.length));
        Cmm_Image image;
        struct told told = {0};
        if (Cmm_ReadImage(&image, image_bytes.at, image_bytes.length, room) == CMM_OK) {
            told = answer_case(&image, &snapshot, &script_bytes, &walked, &log);
        } else {
            told.walk_status = put_fault("bad image ", image.fault.rule, " at ", image.fault.offset, BAD_IMAGE);
            walked = taken();
        }
        told.walk_length = walked.length;
        told.log_length = log.length;
        fwrite(&told, sizeof told, 1, stdout);
        write_part(&walked, told.walk_length);
        write_part(&log, told.log_length);
        write_part(&snapshot, told.snapshot_length);
        fflush(stdout);
        free(walked.at), free(log.at), free(room), free(image_bytes.at), free(snapshot.at), free(script_bytes.at);
    }
    return 0;
}
