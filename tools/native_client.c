/* Runs an image on RISC-V Linux, or under qemu-riscv64, with the client that a script is: native_client IMAGE [--client SCRIPT] [--stack BYTES].
 *
 * It does what `cmm run` does with the same words, by the run-time interface in C alone: the same output, log and exit status (docs/ERRORS.md). What it has not: a limit
 * on instructions, traps (which end it by a signal), and images of version 1.
 */
#include "client_script.h"

/* Exit statuses of `cmm run`. */
enum { DONE = 0, USAGE = 2, BAD_IMAGE = 4, STOPPED_RUN = 5, STACK_ENDED = 6, FILE_FAULT = 9, INPUT_FAULT = 10, OUTPUT_FAULT = 11, MEMORY = 12, BAD_SCRIPT = 14, TORN_RUN = 15 };

static bool write_log(const char *bytes, size_t length)
{
    return Cmm_Write(2, bytes, length);
}

static Cmm_Native native;
static Cmm_Streams streams;
static struct script script;
static struct lines lines = {.write = write_log};

/* The words of a call. */
struct words {
    const char *image, *client;
    uint64_t stack;
};

static Cmm_Text text_of(const char *text)
{
    size_t length = 0;
    while (text[length] != 0)
        length++;
    return (Cmm_Text){text, length};
}

static bool is_same(const char *a, const char *b)
{
    while (*a != 0 && *a == *b)
        a++, b++;
    return *a == *b;
}

static bool read_words(int count, char **words, struct words *found)
{
    for (int i = 1; i < count; i++) {
        if (is_same(words[i], "--client") && i + 1 < count)
            found->client = words[++i];
        else if (is_same(words[i], "--stack") && i + 1 < count && number_of(text_of(words[i + 1]), &found->stack))
            i++;
        else if (found->image == NULL)
            found->image = words[i];
        else
            return false;
    }
    return found->image != NULL;
}

/* The closing line, behind all output and the lines before. */
static int end(const char *line, int status)
{
    bool is_written = Cmm_FlushStreams(&streams);
    put_text(&lines, line);
    put_text(&lines, "\n");
    return flush_lines(&lines) && is_written ? status : OUTPUT_FAULT;
}

/* The closing line of a fault with a rule and a place. */
static int end_with_rule(const char *what, unsigned rule, const char *where, uint64_t place, int status)
{
    put_text(&lines, what);
    put_number(&lines, rule);
    put_text(&lines, where);
    put_number(&lines, place);
    return end("", status);
}

static int end_with_result(uint64_t result)
{
    put_text(&lines, "result ");
    put_number(&lines, result);
    return end("", DONE);
}

static int end_torn(uint64_t frame, uint64_t address)
{
    put_text(&lines, "torn ");
    put_address(&lines, frame);
    put_text(&lines, " ");
    put_address(&lines, address);
    return end("", TORN_RUN);
}

static int end_file_fault(const char *path)
{
    put_text(&lines, "file fault ");
    return end(path, FILE_FAULT);
}

/* The run, from its beginning to its end. */
static int run(void)
{
    uint64_t frame, address;
    Cmm_Event event;
    while ((event = Cmm_Resume(&native)) == CMM_YIELDED) {
        enum answer answer = answer_yield(&script, &native.program, &lines, &frame, &address);
        if (answer != RESUMES)
            return answer == IS_TORN ? end_torn(frame, address) : end("stopped", STOPPED_RUN);
    }
    switch (event) {
    case CMM_ENDED: return end_with_result(Cmm_ResultOf(&native));
    case CMM_STACK_LIMIT: return end("stack limit", STACK_ENDED);
    case CMM_INPUT_FAULT: return end("input fault", INPUT_FAULT);
    case CMM_OUTPUT_FAULT: return OUTPUT_FAULT;
    case CMM_YIELDED: case CMM_NOT_SET: break;
    }
    return end("stopped", STOPPED_RUN);
}

int main(int count, char **words)
{
    struct words found = {.stack = CMM_USUAL_STACK};
    uint8_t *bytes = NULL;
    size_t length = 0;
    unsigned rule, line;
    if (!read_words(count, words, &found))
        return end("usage", USAGE);
    Cmm_Result loaded = Cmm_Load(&native, found.image, found.stack, Cmm_StreamsHost(&streams));
    if (loaded == CMM_FILE_FAULT)
        return end_file_fault(found.image);
    if (found.client != NULL && Cmm_ReadFile(found.client, &bytes, &length) != CMM_OK)
        return end_file_fault(found.client);
    if (loaded == CMM_BAD_IMAGE)
        return end_with_rule("bad image ", native.image.fault.rule, " at ", native.image.fault.offset, BAD_IMAGE);
    if (!read_script(&script, (const char *)bytes, length, &rule, &line))
        return end_with_rule("bad script ", rule, " line ", line, BAD_SCRIPT);
    if (loaded == CMM_BAD_STACK)
        return end("usage", USAGE);
    if (loaded != CMM_OK)
        return end(loaded == CMM_STRANGE_CODE ? "strange code" : "out of memory", loaded == CMM_STRANGE_CODE ? FILE_FAULT : MEMORY);
    return run();
}
