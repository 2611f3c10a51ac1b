/* Reads the bytes of an image, version 2, field after field: docs/FORMATS.md, "An image". What it has taken keeps these rules, so the walker tests none of them again. */
#include "cmm_tables.h"

enum { HEADER = 64, NO_IMAGE = 50, OTHER_VERSION = 51, CUT = 52, BAD_FIELD = 53, OUT_OF_RANGE = 54, MORE_BYTES = 55, TOO_LONG = 56 };
enum { LEAST_PROCEDURE = 29, LEAST_SITE = 22, LEAST_ROW = 4, MOST_VARIABLES = 1024 };
#define LONGEST UINT64_C(536870912)
#define MOST_CODE UINT64_C(0x3FFF0000)
#define MOST_DATA UINT64_C(67108864)
#define MOST_FRAME (UINT32_C(1) << 28)

/* The bytes that are read: how far they are, where the last field begins, and what has been noted. */
struct reader {
    Cmm_Image *image;
    size_t at, begin;
    uint32_t sites, rows; /* how many are noted */
};

/* A procedure while its record is read: its row, and bit by bit which variables have a place, and which are live at some site. */
struct procedure {
    struct Cmm_ProcedureRow row;
    uint64_t code;
    uint8_t placed[MOST_VARIABLES / 8], live[MOST_VARIABLES / 8];
};

/* ---- Fields: each of these is false where a rule is broken, which is noted then. */

static bool broken(struct reader *r, unsigned rule)
{
    r->image->fault = (Cmm_ImageFault){rule, r->begin};
    return false;
}

/* The last field breaks the rule unless this holds. */
static bool need(struct reader *r, bool holds, unsigned rule)
{
    return holds || broken(r, rule);
}

/* So many more bytes of the field that has begun. */
static bool more(struct reader *r, uint64_t size)
{
    if (r->image->length - r->at < size)
        return broken(r, CUT);
    r->at += size;
    return true;
}

/* The next field, of so many bytes. */
static bool field(struct reader *r, uint64_t size)
{
    r->begin = r->at;
    return more(r, size);
}

/* The next field, a number. */
static bool number(struct reader *r, unsigned size, uint64_t *value)
{
    if (!field(r, size))
        return false;
    *value = cmm_number(r->image->bytes + r->begin, size);
    return true;
}

/* The next field, a number up to this one. */
static bool number_to(struct reader *r, unsigned size, uint64_t most, unsigned rule, uint64_t *value)
{
    return number(r, size, value) && need(r, *value <= most, rule);
}

/* The next field, a text: a byte n, and n bytes. */
static bool text(struct reader *r)
{
    return field(r, 1) && more(r, r->image->bytes[r->begin]);
}

static bool is_in_code(const struct reader *r, uint64_t address)
{
    return address >= CMM_CODE_BASE && address - CMM_CODE_BASE < r->image->code_length && address % 4 == 0;
}

static bool code_address(struct reader *r, uint64_t *address)
{
    return number(r, 8, address) && need(r, is_in_code(r, *address), OUT_OF_RANGE);
}

static bool width(struct reader *r)
{
    uint64_t value;
    return number(r, 1, &value) && need(r, value == 8 || value == 16 || value == 32 || value == 64, BAD_FIELD);
}

/* An offset that leaves so many bytes of a frame. */
static bool in_frame(struct reader *r, uint64_t offset, unsigned size, uint32_t frame_size)
{
    return need(r, offset + size <= frame_size, OUT_OF_RANGE);
}

/* ---- Procedures */

static bool saved_registers(struct reader *r, struct Cmm_ProcedureRow *row)
{
    uint64_t count, saved, offset, before = 0;
    if (!number(r, 1, &count))
        return false;
    row->saved = (uint32_t)r->at;
    row->saved_count = (uint8_t)count;
    for (uint64_t i = 0; i < count; i++) {
        if (!number(r, 1, &saved) || !need(r, cmm_callee_saves((unsigned)saved) < CMM_CALLEE_SAVES && saved > before, BAD_FIELD))
            return false;
        before = saved;
        if (!number(r, 4, &offset) || !in_frame(r, offset, 8, row->frame_size))
            return false;
    }
    return true;
}

/* The place of a variable, as one field. */
static bool place(struct reader *r, uint32_t frame_size, bool *is_placed)
{
    if (!field(r, 1))
        return false;
    const uint8_t *at = r->image->bytes + r->begin;
    *is_placed = at[0] != CMM_NO_PLACE;
    if (at[0] == CMM_IN_FRAME)
        return more(r, 4) && in_frame(r, cmm_number(at + 1, 4), 8, frame_size);
    if (at[0] == CMM_IN_REGISTER)
        return more(r, 1) && need(r, cmm_callee_saves(at[1]) < CMM_CALLEE_SAVES, BAD_FIELD);
    return need(r, at[0] == CMM_NO_PLACE, BAD_FIELD);
}

static bool variables(struct reader *r, struct procedure *p)
{
    uint64_t count, invariant;
    if (!number_to(r, 2, MOST_VARIABLES, BAD_FIELD, &count))
        return false;
    p->row.variables = r->rows;
    p->row.variable_count = (uint16_t)count;
    for (unsigned i = 0; i < count; i++) {
        bool is_placed;
        size_t begin = r->at;
        if (!width(r) || !number_to(r, 1, 1, BAD_FIELD, &invariant) || !text(r) || !place(r, p->row.frame_size, &is_placed))
            return false;
        r->image->rows[r->rows++] = (uint32_t)begin;
        p->placed[i / 8] |= (uint8_t)(is_placed << i % 8);
    }
    return true;
}

static bool stack_labels(struct reader *r, struct Cmm_ProcedureRow *row)
{
    uint64_t count, offset;
    if (!number(r, 2, &count))
        return false;
    row->stack_labels = (uint32_t)r->at;
    row->stack_label_count = (uint16_t)count;
    for (uint64_t i = 0; i < count; i++)
        if (!number_to(r, 4, row->frame_size, OUT_OF_RANGE, &offset))
            return false;
    return true;
}

/* A continuation, from its pair to its parameters. */
static bool continuation(struct reader *r, const struct Cmm_ProcedureRow *row)
{
    uint64_t pair, code, count, parameter;
    if (!number(r, 4, &pair) || !need(r, pair % 8 == 0, OUT_OF_RANGE) || !in_frame(r, pair, 16, row->frame_size))
        return false;
    if (!code_address(r, &code) || !number_to(r, 1, CMM_MOST_VALUES, BAD_FIELD, &count))
        return false;
    for (uint64_t i = 0; i < count; i++)
        if (!number(r, 2, &parameter) || !need(r, parameter < row->variable_count, BAD_FIELD))
            return false;
    return true;
}

static bool continuations(struct reader *r, struct Cmm_ProcedureRow *row)
{
    uint64_t count;
    if (!number(r, 2, &count))
        return false;
    row->continuation_count = (uint16_t)count;
    for (uint64_t i = 0; i < count; i++) {
        size_t begin = r->at;
        if (!continuation(r, row))
            return false;
        r->image->rows[r->rows++] = (uint32_t)begin;
    }
    return true;
}

/* ---- Sites */

/* A continuation of the procedure, by its number. */
static bool exit_number(struct reader *r, const struct Cmm_ProcedureRow *row)
{
    uint64_t value;
    return number(r, 2, &value) && need(r, value < row->continuation_count, BAD_FIELD);
}

static bool results(struct reader *r)
{
    uint64_t count;
    if (!number_to(r, 1, CMM_MOST_VALUES, BAD_FIELD, &count))
        return false;
    for (uint64_t i = 0; i < count; i++)
        if (!width(r))
            return false;
    return true;
}

static bool alternates(struct reader *r, const struct Cmm_ProcedureRow *row, uint64_t address)
{
    uint64_t count;
    if (!number_to(r, 1, CMM_MOST_VALUES, BAD_FIELD, &count) || !need(r, is_in_code(r, address + 4 * count), OUT_OF_RANGE))
        return false;
    for (uint64_t i = 0; i < count; i++)
        if (!exit_number(r, row))
            return false;
    return true;
}

static bool unwinds(struct reader *r, const struct Cmm_ProcedureRow *row)
{
    uint64_t count, landing;
    if (!number(r, 2, &count))
        return false;
    for (uint64_t i = 0; i < count; i++)
        if (!exit_number(r, row) || !code_address(r, &landing))
            return false;
    return true;
}

static bool cuts(struct reader *r, const struct Cmm_ProcedureRow *row)
{
    uint64_t count;
    if (!number(r, 2, &count))
        return false;
    for (uint64_t i = 0; i < count; i++)
        if (!exit_number(r, row))
            return false;
    return true;
}

/* A bit for each variable, whether it is live. Each that is has a place. */
static bool live_bits(struct reader *r, struct procedure *p)
{
    uint64_t bits;
    for (unsigned i = 0; i * 8 < p->row.variable_count; i++) {
        if (!number(r, 1, &bits) || !need(r, (bits & ~(uint64_t)p->placed[i]) == 0, BAD_FIELD))
            return false;
        p->live[i] |= (uint8_t)bits;
    }
    return true;
}

static bool spans(struct reader *r)
{
    uint64_t count, token, value, before = 0;
    if (!number(r, 2, &count))
        return false;
    for (uint64_t i = 0; i < count; i++) {
        if (!number(r, 8, &token) || !need(r, i == 0 || token > before, BAD_FIELD) || !number(r, 8, &value))
            return false;
        before = token;
    }
    return true;
}

/* A site, whose return address is above `before`, and no earlier one. */
static bool site(struct reader *r, struct procedure *p, bool is_first, uint64_t *before, uint32_t procedure_number)
{
    uint64_t address, value;
    size_t begin = r->at;
    if (!number(r, 8, &address) || !need(r, is_first || address > *before, BAD_FIELD))
        return false;
    if (is_in_code(r, address) && !need(r, r->image->site_at[(address - CMM_CODE_BASE) / 4] == 0, BAD_FIELD))
        return false;
    if (!need(r, is_in_code(r, address), OUT_OF_RANGE) || !number(r, 4, &value) || !number_to(r, 1, 3, BAD_FIELD, &value))
        return false;
    if (!number(r, 1, &value) || !need(r, value <= CMM_MOST_VALUES || value == CMM_NO_YIELD, BAD_FIELD))
        return false;
    if (!results(r) || !alternates(r, &p->row, address) || !unwinds(r, &p->row) || !cuts(r, &p->row) || !live_bits(r, p) || !spans(r))
        return false;
    *before = address;
    r->image->sites[r->sites++] = (struct Cmm_SiteRow){procedure_number, (uint32_t)begin};
    r->image->site_at[(address - CMM_CODE_BASE) / 4] = r->sites;
    return true;
}

/* The sites of a procedure, and the byte 0 behind them. */
static bool sites(struct reader *r, struct procedure *p, uint32_t procedure_number)
{
    uint64_t count, end, before = 0;
    bool may_have_sites = p->row.frame_size >= 16 && p->row.return_at != CMM_NO_RETURN_ADDRESS;
    if (!number(r, 4, &count) || !need(r, count == 0 || may_have_sites, BAD_FIELD))
        return false;
    for (uint64_t i = 0; i < count; i++)
        if (!site(r, p, i == 0, &before, procedure_number))
            return false;
    if (!number(r, 1, &end))
        return false;
    bool is_last = procedure_number + 1 == r->image->procedure_count, each_is_live = true;
    for (unsigned i = 0; i * 8 < p->row.variable_count; i++)
        each_is_live = each_is_live && p->placed[i] == p->live[i];
    return need(r, end == 0 && each_is_live && (!is_last || r->sites == r->image->site_count), BAD_FIELD);
}

/* A procedure with its sites, whose code is behind that of the one before. */
static bool procedure(struct reader *r, uint32_t procedure_number, uint64_t *before)
{
    struct procedure p = {.code = 0};
    uint64_t frame_size, return_at;
    if (!number(r, 8, &p.code) || !need(r, procedure_number == 0 || p.code > *before, BAD_FIELD) || !need(r, is_in_code(r, p.code), OUT_OF_RANGE))
        return false;
    *before = p.code;
    p.row.name = (uint32_t)r->at;
    if (!text(r) || !number(r, 4, &frame_size) || !need(r, frame_size % 16 == 0, BAD_FIELD) || !need(r, frame_size <= MOST_FRAME, OUT_OF_RANGE))
        return false;
    p.row.frame_size = (uint32_t)frame_size;
    if (!number(r, 4, &return_at) || !need(r, return_at == CMM_NO_RETURN_ADDRESS || (return_at % 8 == 0 && return_at + 8 <= frame_size), OUT_OF_RANGE))
        return false;
    p.row.return_at = (uint32_t)return_at;
    if (!saved_registers(r, &p.row) || !variables(r, &p) || !stack_labels(r, &p.row) || !continuations(r, &p.row) || !sites(r, &p, procedure_number))
        return false;
    r->image->procedures[procedure_number] = p.row;
    return true;
}

/* ---- The whole */

/* A text that is above the one that begins at `*before`, by bytes; `*before` is this one then. */
static bool text_above(struct reader *r, bool is_first, size_t *before)
{
    if (!text(r))
        return false;
    const uint8_t *old = r->image->bytes + *before, *new = r->image->bytes + r->begin;
    *before = r->begin;
    if (is_first)
        return true;
    for (unsigned i = 1; i <= old[0] && i <= new[0]; i++)
        if (old[i] != new[i])
            return need(r, old[i] < new[i], BAD_FIELD);
    return need(r, old[0] < new[0], BAD_FIELD);
}

static bool labels(struct reader *r)
{
    uint64_t address;
    size_t before = 0;
    r->image->first_label = (uint32_t)r->at;
    for (uint32_t i = 0; i < r->image->label_count; i++) {
        if (!text_above(r, i == 0, &before) || !number(r, 8, &address))
            return false;
        if (!need(r, address >= CMM_DATA_BASE && address - CMM_DATA_BASE <= r->image->data_length, OUT_OF_RANGE))
            return false;
    }
    return true;
}

static bool global_registers(struct reader *r, uint64_t count)
{
    size_t before = 0;
    for (uint64_t i = 0; i < count; i++)
        if (!width(r) || !text_above(r, i == 0, &before))
            return false;
    return true;
}

/* The header, the code and the data. */
static bool front(struct reader *r, uint64_t *global_count)
{
    Cmm_Image *image = r->image;
    uint64_t magic, version, procedure_count, site_count, label_count, main_procedure, zero;
    if (!number(r, 4, &magic) || !need(r, magic == 0x494D4D43, NO_IMAGE) || !number(r, 4, &version) || !need(r, version == 2, OTHER_VERSION))
        return false;
    if (!number(r, 8, &image->code_length) || !need(r, image->code_length >= 4 && image->code_length <= MOST_CODE && image->code_length % 4 == 0, OUT_OF_RANGE))
        return false;
    if (!number_to(r, 8, MOST_DATA, OUT_OF_RANGE, &image->data_length) || !code_address(r, &image->start) || !code_address(r, &image->last))
        return false;
    if (!number(r, 4, &procedure_count) || !need(r, procedure_count >= 1 && procedure_count <= 65535, BAD_FIELD))
        return false;
    if (!number(r, 4, &site_count) || !number(r, 4, &label_count) || !number_to(r, 4, 256, BAD_FIELD, global_count))
        return false;
    if (!number_to(r, 4, procedure_count - 1, BAD_FIELD, &main_procedure) || !number_to(r, 4, 0, BAD_FIELD, &zero))
        return false;
    image->procedure_count = (uint32_t)procedure_count;
    image->site_count = (uint32_t)site_count;
    image->label_count = (uint32_t)label_count;
    return field(r, image->code_length) && field(r, image->data_length);
}

/* The bytes of the records behind the data, by the lengths that the header tells; none where that has no such lengths. Then the reader ends before it comes to a record. */
static uint64_t record_bytes(const uint8_t *bytes, uint64_t length)
{
    if (length < HEADER || length > LONGEST)
        return 0;
    uint64_t code_length = cmm_number(bytes + 8, 8), data_length = cmm_number(bytes + 16, 8);
    if (code_length > MOST_CODE || data_length > MOST_DATA || length - HEADER < code_length + data_length)
        return 0;
    return length - HEADER - code_length - data_length;
}

size_t Cmm_ImageRoom(const void *bytes, size_t length)
{
    uint64_t records = record_bytes(bytes, length);
    if (records == 0)
        return 8;
    uint64_t rows = records / LEAST_PROCEDURE * sizeof(struct Cmm_ProcedureRow) + records / LEAST_SITE * sizeof(struct Cmm_SiteRow);
    return (size_t)(rows + records / LEAST_ROW * sizeof(uint32_t) + cmm_number((const uint8_t *)bytes + 8, 8));
}

Cmm_Result Cmm_ReadImage(Cmm_Image *image, const void *bytes, size_t length, void *room)
{
    uint64_t records = record_bytes(bytes, length), global_count, before = 0;
    struct reader r = {.image = image};
    *image = (Cmm_Image){.bytes = bytes, .length = length, .procedures = room};
    image->sites = (struct Cmm_SiteRow *)(image->procedures + records / LEAST_PROCEDURE);
    image->rows = (uint32_t *)(image->sites + records / LEAST_SITE);
    image->site_at = image->rows + records / LEAST_ROW;
    if (length > LONGEST) {
        image->fault = (Cmm_ImageFault){TOO_LONG, LONGEST};
        return CMM_BAD_IMAGE;
    }
    bool is_read = front(&r, &global_count);
    for (uint32_t i = 0; is_read && i < image->procedure_count; i++)
        is_read = procedure(&r, i, &before);
    if (!is_read || !labels(&r) || !global_registers(&r, global_count))
        return CMM_BAD_IMAGE;
    r.begin = r.at;
    return need(&r, r.at == length, MORE_BYTES) ? CMM_OK : CMM_BAD_IMAGE;
}

Cmm_Result Cmm_FindLabel(const Cmm_Image *image, Cmm_Text name, uint64_t *address)
{
    const uint8_t *at = image->bytes + image->first_label;
    for (uint32_t i = 0; i < image->label_count; i++) {
        size_t length = at[0], same = 0;
        while (length == name.length && same < length && at[1 + same] == (uint8_t)name.bytes[same])
            same++;
        if (length == name.length && same == length) {
            *address = cmm_number(at + 1 + length, 8);
            return CMM_OK;
        }
        at += 1 + length + 8;
    }
    return CMM_NO_LABEL;
}
