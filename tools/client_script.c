/* Reads client scripts and does what they say: see client_script.h. Plain C11 without a library. */
#include "client_script.h"

/* ---- Lines */

bool flush_lines(struct lines *to)
{
    if (to->used != 0 && !to->write(to->bytes, to->used))
        to->has_failed = true;
    to->used = 0;
    return !to->has_failed;
}

void put_bytes(struct lines *to, const char *bytes, size_t length)
{
    for (size_t i = 0; i < length; i++) {
        if (to->used == sizeof to->bytes)
            flush_lines(to);
        to->bytes[to->used++] = bytes[i];
    }
}

void put_text(struct lines *to, const char *text)
{
    size_t length = 0;
    while (text[length] != 0)
        length++;
    put_bytes(to, text, length);
}

void put_number(struct lines *to, uint64_t number)
{
    char digits[20];
    size_t first = sizeof digits;
    do {
        digits[--first] = (char)('0' + number % 10);
        number /= 10;
    } while (number != 0);
    put_bytes(to, digits + first, sizeof digits - first);
}

void put_address(struct lines *to, uint64_t address)
{
    for (int shift = 60; shift >= 0; shift -= 4)
        put_bytes(to, &"0123456789abcdef"[address >> shift & 15], 1);
}

/* ---- Words and numbers */

/* The next word of a line, which is taken off it; empty where there is none. */
static Cmm_Text next_word(Cmm_Text *line)
{
    size_t begin = 0;
    while (begin < line->length && (line->bytes[begin] == ' ' || line->bytes[begin] == '\t'))
        begin++;
    size_t end = begin;
    while (end < line->length && line->bytes[end] != ' ' && line->bytes[end] != '\t')
        end++;
    Cmm_Text word = {line->bytes + begin, end - begin};
    line->bytes += end;
    line->length -= end;
    return word;
}

static bool is_word(Cmm_Text word, const char *spelling)
{
    size_t i = 0;
    while (i < word.length && spelling[i] != 0 && word.bytes[i] == spelling[i])
        i++;
    return i == word.length && spelling[i] == 0;
}

/* The value of a digit, 16 where it is none. */
static unsigned digit_of(char digit)
{
    if (digit >= '0' && digit <= '9')
        return (unsigned)(digit - '0');
    if (digit >= 'a' && digit <= 'f')
        return (unsigned)(digit - 'a' + 10);
    return digit >= 'A' && digit <= 'F' ? (unsigned)(digit - 'A' + 10) : 16;
}

/* The number that digits spell from `at` on, to a base. */
static bool digits_of(Cmm_Text text, size_t at, unsigned base, uint64_t *number)
{
    if (at >= text.length)
        return false;
    *number = 0;
    for (; at < text.length; at++) {
        unsigned digit = digit_of(text.bytes[at]);
        if (digit >= base || *number > (UINT64_MAX - digit) / base)
            return false;
        *number = *number * base + digit;
    }
    return true;
}

bool number_of(Cmm_Text text, uint64_t *number)
{
    bool is_hexadecimal = text.length >= 2 && text.bytes[0] == '0' && text.bytes[1] == 'x';
    return is_hexadecimal ? digits_of(text, 2, 16, number) : digits_of(text, 0, 10, number);
}

static bool small_number_of(Cmm_Text text, uint64_t *number)
{
    return number_of(text, number) && *number <= UINT32_MAX;
}

static bool value_of(Cmm_Text text, struct value *value)
{
    value->is_yielded = text.length != 0 && text.bytes[0] == '$';
    if (value->is_yielded)
        return digits_of(text, 1, 10, &value->number) && value->number < CMM_MOST_VALUES;
    return number_of(text, &value->number);
}

/* ---- Scripts */

/* What a command is written as: `number` is N for a number, n for one below 2^32, and a blank for none. */
struct form {
    const char *word;
    enum command_kind kind;
    char number;
    bool has_label, has_value, has_values;
};

static const struct form forms[] = {
    {"list", LIST, ' ', false, false, false},
    {"youngest", YOUNGEST, ' ', false, false, false},
    {"next", NEXT, ' ', false, false, false},
    {"stop", STOP, ' ', false, false, false},
    {"desc", DESC, 'N', false, false, false},
    {"var", VAR, 'n', false, false, false},
    {"seek", SEEK, 'N', false, true, false},
    {"set", SET, 'n', false, true, false},
    {"poke", POKE, 'N', true, true, false},
    {"return", RETURN, 'n', false, false, true},
    {"unwind", UNWIND, 'n', false, false, true},
    {"cut", CUT, ' ', false, true, true},
};

/* The values behind a command, which end its line. */
static bool read_values(struct script *script, struct command *command, Cmm_Text *line)
{
    Cmm_Text word;
    command->first = script->value_count;
    while ((word = next_word(line)).length != 0) {
        if (command->count == CMM_MOST_VALUES || !value_of(word, &script->values[script->value_count]))
            return false;
        script->value_count++;
        command->count++;
    }
    return true;
}

/* The operands of a command, in a line whose first word has been taken. */
static bool read_operands(struct script *script, const struct form *form, struct command *command, Cmm_Text *line)
{
    if (form->has_label && (command->label = next_word(line)).length == 0)
        return false;
    if (form->number == 'N' && !number_of(next_word(line), &command->number))
        return false;
    if (form->number == 'n' && !small_number_of(next_word(line), &command->number))
        return false;
    if (form->has_value && !value_of(next_word(line), &command->value))
        return false;
    return form->has_values ? read_values(script, command, line) : next_word(line).length == 0;
}

static bool read_command(struct script *script, Cmm_Text line)
{
    Cmm_Text word = next_word(&line);
    for (size_t i = 0; i < sizeof forms / sizeof forms[0]; i++) {
        if (!is_word(word, forms[i].word) || script->block_count == 0)
            continue;
        struct command command = {.kind = forms[i].kind};
        if (!read_operands(script, &forms[i], &command, &line))
            return false;
        script->commands[script->command_count++] = command;
        script->blocks[script->block_count - 1].count++;
        return true;
    }
    return false;
}

/* Whether a line is the head of a block. */
static bool is_head(Cmm_Text line, struct block *head)
{
    Cmm_Text word = next_word(&line);
    head->is_other = is_word(word, "other");
    if (!head->is_other && (!is_word(word, "at") || !number_of(next_word(&line), &head->code)))
        return false;
    return next_word(&line).length == 0;
}

/* Begins a block, unless there is one like it. */
static bool begin_block(struct script *script, struct block head)
{
    for (unsigned i = 0; i < script->block_count; i++)
        if (script->blocks[i].is_other == head.is_other && script->blocks[i].code == head.code)
            return false;
    head.first = script->command_count;
    script->blocks[script->block_count++] = head;
    return true;
}

/* A line of a script: the rule that it breaks, or 0. */
static unsigned read_line(struct script *script, Cmm_Text line)
{
    struct block head = {.code = 0};
    Cmm_Text rest = line, word = next_word(&rest);
    if (word.length == 0 || word.bytes[0] == '#')
        return 0;
    if (is_head(line, &head))
        return begin_block(script, head) ? 0 : REPEATED_BLOCK;
    return read_command(script, line) ? 0 : UNKNOWN_LINE;
}

bool read_script(struct script *script, const char *bytes, size_t length, unsigned *rule, unsigned *line)
{
    *line = 1;
    *rule = length > LONGEST_SCRIPT ? SCRIPT_TOO_LONG : 0;
    for (size_t at = 0; *rule == 0 && at < length; at++, ++*line) {
        size_t begin = at;
        while (at < length && bytes[at] != '\n')
            at++;
        *rule = read_line(script, (Cmm_Text){bytes + begin, at - begin});
        if (*rule != 0)
            return false;
    }
    return *rule == 0;
}

/* ---- The walk */

static void put_kind(struct lines *to, Cmm_Text kind)
{
    for (size_t i = 0; i < kind.length; i++) {
        unsigned byte = (unsigned char)kind.bytes[i];
        if (byte >= 32 && byte <= 126 && byte != '"' && byte != '\\') {
            put_bytes(to, kind.bytes + i, 1);
            continue;
        }
        put_text(to, "\\x");
        put_bytes(to, &"0123456789abcdef"[byte >> 4], 1);
        put_bytes(to, &"0123456789abcdef"[byte & 15], 1);
    }
}

static void put_place(struct lines *to, const Cmm_Activation *a)
{
    Cmm_Text name = Cmm_ProcedureName(a);
    put_bytes(to, name.bytes, name.length);
    put_text(to, " site ");
    put_number(to, Cmm_SiteNumber(a));
    put_text(to, "\n");
}

static void put_value_or_dead(struct lines *to, Cmm_Result result, uint64_t value)
{
    put_text(to, " ");
    if (result == CMM_OK)
        put_number(to, value);
    else
        put_text(to, "dead");
    put_text(to, "\n");
}

static void put_activation(struct lines *to, uint64_t index, const Cmm_Activation *a)
{
    uint64_t token, value = 0;
    Cmm_Variable variable;
    put_text(to, "activation ");
    put_number(to, index);
    put_text(to, " ");
    put_place(to, a);
    for (unsigned i = 0; Cmm_Span(a, i, &token, &value); i++) {
        put_text(to, "span ");
        put_number(to, token);
        put_text(to, " ");
        put_number(to, value);
        put_text(to, "\n");
    }
    for (unsigned i = 0; Cmm_LocalVar(a, i, &variable) == CMM_OK; i++) {
        put_text(to, "var ");
        put_number(to, i);
        put_text(to, " bits");
        put_number(to, variable.width);
        put_text(to, " \"");
        put_kind(to, variable.kind);
        put_text(to, "\"");
        Cmm_Result result = Cmm_LocalVarValue(a, i, &value);
        put_value_or_dead(to, result, value);
    }
}

enum answer write_walk(Cmm_Program *program, struct lines *to, uint64_t *frame, uint64_t *address)
{
    Cmm_Activation a;
    uint64_t index = 0;
    Cmm_Result result = Cmm_FirstActivation(program, &a);
    for (; result == CMM_OK; result = Cmm_NextActivation(&a))
        put_activation(to, index++, &a);
    if (result == CMM_BROKEN_CHAIN) {
        Cmm_FindBreak(program, index == 0 ? NULL : &a, frame, address);
        return IS_TORN;
    }
    put_text(to, "end\n");
    return STOPS;
}

/* ---- The client */

/* A block that is run: the yield's values, and the cursor, if there is an activation. */
struct client {
    const struct script *script;
    Cmm_Program *program;
    struct lines *log;
    unsigned count;
    uint64_t values[CMM_MOST_VALUES];
    bool has_cursor;
    Cmm_Activation cursor;
    uint64_t frame, address; /* where the chain breaks */
};

/* What a command comes to: the next one runs, or the block is over. */
enum outcome { GOES_ON, RESUMED, STOPPED, TORN };

/* A refusal's number in docs/ERRORS.md. */
static unsigned refusal_of(Cmm_Result result)
{
    switch (result) {
    case CMM_NO_ACTIVATION: return 60;
    case CMM_NO_VARIABLE: return 61;
    case CMM_DEAD_VARIABLE: return 62;
    case CMM_DOES_NOT_FIT: return 63;
    case CMM_NO_EXIT: return 64;
    case CMM_OTHER_COUNT: return 65;
    case CMM_INVARIANT_VARIABLE: return 66;
    case CMM_NO_CONTINUATION: return 67;
    case CMM_NO_LABEL: return 68;
    case CMM_NO_VALUE: return 69;
    default: return 0;
    }
}

/* Where a call has not done it: the refusal, or where the chain breaks behind an activation, NULL for the youngest. */
static enum outcome refused(struct client *c, Cmm_Result result, const Cmm_Activation *from)
{
    if (result == CMM_BROKEN_CHAIN) {
        Cmm_FindBreak(c->program, from, &c->frame, &c->address);
        return TORN;
    }
    put_text(c->log, "refused ");
    put_number(c->log, refusal_of(result));
    put_text(c->log, "\n");
    return GOES_ON;
}

/* The cursor is this activation, where it was found. */
static enum outcome moved(struct client *c, Cmm_Result result, Cmm_Activation found)
{
    if (result != CMM_OK)
        return refused(c, result, &found);
    c->cursor = found;
    c->has_cursor = true;
    put_text(c->log, "at ");
    put_place(c->log, &found);
    return GOES_ON;
}

/* The number that a value of a script is. */
static Cmm_Result given(const struct client *c, struct value value, uint64_t *number)
{
    if (value.is_yielded && value.number >= c->count)
        return CMM_NO_VALUE;
    *number = value.is_yielded ? c->values[value.number] : value.number;
    return CMM_OK;
}

/* The numbers that the values behind a command are. */
static Cmm_Result given_all(const struct client *c, const struct command *command, uint64_t *numbers)
{
    Cmm_Result result = CMM_OK;
    for (unsigned i = 0; i < command->count && result == CMM_OK; i++)
        result = given(c, c->script->values[command->first + i], &numbers[i]);
    return result;
}

static enum outcome do_youngest(struct client *c)
{
    Cmm_Activation found;
    Cmm_Result result = Cmm_FirstActivation(c->program, &found);
    return result == CMM_OK ? moved(c, result, found) : refused(c, result, NULL);
}

static enum outcome do_next(struct client *c)
{
    Cmm_Activation found = c->cursor;
    return moved(c, c->has_cursor ? Cmm_NextActivation(&found) : CMM_NO_ACTIVATION, found);
}

static enum outcome do_desc(struct client *c, const struct command *command)
{
    if (!c->has_cursor)
        return refused(c, CMM_NO_ACTIVATION, NULL);
    put_text(c->log, "desc ");
    put_number(c->log, Cmm_GetDescriptor(&c->cursor, command->number));
    put_text(c->log, "\n");
    return GOES_ON;
}

static enum outcome do_seek(struct client *c, const struct command *command)
{
    uint64_t wanted = 0;
    Cmm_Activation found = c->cursor;
    Cmm_Result result = given(c, command->value, &wanted);
    if (result == CMM_OK && !c->has_cursor)
        result = CMM_NO_ACTIVATION;
    while (result == CMM_OK && Cmm_GetDescriptor(&found, command->number) != wanted)
        result = Cmm_NextActivation(&found);
    return moved(c, result, found);
}

static enum outcome do_var(struct client *c, const struct command *command)
{
    uint64_t value = 0;
    Cmm_Result result = c->has_cursor ? Cmm_LocalVarValue(&c->cursor, (unsigned)command->number, &value) : CMM_NO_ACTIVATION;
    if (result != CMM_OK && result != CMM_DEAD_VARIABLE)
        return refused(c, result, NULL);
    put_text(c->log, "var ");
    put_number(c->log, command->number);
    put_value_or_dead(c->log, result, value);
    return GOES_ON;
}

/* The line of a change, where it was done. */
static enum outcome changed(struct client *c, Cmm_Result result)
{
    if (result != CMM_OK)
        return refused(c, result, NULL);
    put_text(c->log, "ok\n");
    return GOES_ON;
}

static enum outcome do_set(struct client *c, const struct command *command)
{
    uint64_t value = 0;
    Cmm_Result result = given(c, command->value, &value);
    if (result == CMM_OK)
        result = c->has_cursor ? Cmm_SetLocalVar(&c->cursor, (unsigned)command->number, value) : CMM_NO_ACTIVATION;
    return changed(c, result);
}

static enum outcome do_poke(struct client *c, const struct command *command)
{
    uint64_t value = 0, address = 0;
    uint8_t *place = NULL;
    Cmm_Result result = given(c, command->value, &value);
    if (result == CMM_OK)
        result = Cmm_FindLabel(c->program->image, command->label, &address);
    if (result == CMM_OK && command->number < CMM_REGION_BASE - address && (address + command->number) % 8 == 0)
        place = Cmm_FindBytes(c->program, address + command->number, 8);
    if (result == CMM_OK && place == NULL)
        result = CMM_NO_LABEL;
    for (unsigned i = 0; i < 8 && result == CMM_OK; i++)
        place[i] = (uint8_t)(value >> (8 * i));
    return changed(c, result);
}

/* The line of what resumes, where it was noted. */
static enum outcome resumed(struct client *c, Cmm_Result result)
{
    if (result != CMM_OK)
        return refused(c, result, NULL);
    put_text(c->log, "resume\n");
    return RESUMED;
}

static enum outcome do_return(struct client *c, const struct command *command)
{
    uint64_t numbers[CMM_MOST_VALUES];
    Cmm_Result result = given_all(c, command, numbers);
    return resumed(c, result == CMM_OK ? Cmm_SetReturnCont(c->program, (unsigned)command->number, numbers, command->count) : result);
}

static enum outcome do_unwind(struct client *c, const struct command *command)
{
    uint64_t numbers[CMM_MOST_VALUES];
    Cmm_Result result = given_all(c, command, numbers);
    if (result == CMM_OK)
        result = c->has_cursor ? Cmm_SetUnwindCont(&c->cursor, (unsigned)command->number, numbers, command->count) : CMM_NO_ACTIVATION;
    return resumed(c, result);
}

static enum outcome do_cut(struct client *c, const struct command *command)
{
    uint64_t numbers[CMM_MOST_VALUES], to = 0;
    Cmm_Result result = given(c, command->value, &to);
    if (result == CMM_OK)
        result = given_all(c, command, numbers);
    return resumed(c, result == CMM_OK ? Cmm_SetCutToCont(c->program, to, numbers, command->count) : result);
}

static enum outcome do_command(struct client *c, const struct command *command)
{
    switch (command->kind) {
    case LIST: return write_walk(c->program, c->log, &c->frame, &c->address) == IS_TORN ? TORN : GOES_ON;
    case YOUNGEST: return do_youngest(c);
    case NEXT: return do_next(c);
    case DESC: return do_desc(c, command);
    case SEEK: return do_seek(c, command);
    case VAR: return do_var(c, command);
    case SET: return do_set(c, command);
    case POKE: return do_poke(c, command);
    case RETURN: return do_return(c, command);
    case UNWIND: return do_unwind(c, command);
    case CUT: return do_cut(c, command);
    case STOP: break;
    }
    return STOPPED;
}

/* The block that answers: the one of the first value, or the other one; NULL where there is neither. */
static const struct block *block_for(const struct script *script, bool has_code, uint64_t code)
{
    const struct block *other = NULL;
    for (unsigned i = 0; i < script->block_count; i++) {
        const struct block *block = &script->blocks[i];
        if (block->is_other)
            other = block;
        else if (has_code && block->code == code)
            return block;
    }
    return other;
}

enum answer answer_yield(const struct script *script, Cmm_Program *program, struct lines *log, uint64_t *frame, uint64_t *address)
{
    struct client c = {.script = script, .program = program, .log = log};
    Cmm_Result youngest = Cmm_FirstActivation(program, &c.cursor);
    enum outcome outcome = GOES_ON;
    if (youngest == CMM_BROKEN_CHAIN) {
        Cmm_FindBreak(program, NULL, frame, address);
        return IS_TORN;
    }
    c.has_cursor = youngest == CMM_OK;
    c.count = Cmm_YieldCount(program);
    put_text(log, "yield");
    for (unsigned i = 0; i < c.count && Cmm_YieldValue(program, i, &c.values[i]) == CMM_OK; i++) {
        put_text(log, " ");
        put_number(log, c.values[i]);
    }
    put_text(log, "\n");
    const struct block *block = block_for(script, c.count != 0, c.values[0]);
    for (unsigned i = 0; block != NULL && i < block->count && outcome == GOES_ON; i++)
        outcome = do_command(&c, &script->commands[block->first + i]);
    *frame = c.frame;
    *address = c.address;
    return outcome == TORN ? IS_TORN : outcome == RESUMED ? RESUMES : STOPS;
}
