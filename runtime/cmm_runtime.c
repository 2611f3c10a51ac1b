/* The walk of a stopped program, its variables, and where it goes on: docs/RUNTIME.md, "What an image does". Plain C11 without a library.
 *
 * An activation that is found fits: its site is one of the image's, its frame lies in the stack, and so does each place where the value of a register has been saved. The
 * tables keep each part of a frame inside of it (cmm_tables.c). So what an activation leads to lies in the stack, whatever is there.
 */
#include "cmm_tables.h"

/* What the fields of a site are: where its lists begin, and how many each has. */
struct site {
    const uint8_t *record, *results, *alternates, *unwinds, *cuts, *live, *spans;
    unsigned result_count, alternate_count, unwind_count, cut_count, span_count;
};

static const struct Cmm_ProcedureRow *procedure_of(const Cmm_Activation *a)
{
    const Cmm_Image *image = a->program->image;
    return image->procedures + image->sites[a->site].procedure;
}

static const uint8_t *site_record(const Cmm_Activation *a)
{
    const Cmm_Image *image = a->program->image;
    return image->bytes + image->sites[a->site].offset;
}

static struct site site_of(const Cmm_Activation *a)
{
    struct site s = {.record = site_record(a)};
    s.result_count = s.record[CMM_SITE_RESULTS];
    s.results = s.record + CMM_SITE_RESULTS + 1;
    s.alternate_count = s.results[s.result_count];
    s.alternates = s.results + s.result_count + 1;
    const uint8_t *at = s.alternates + 2 * s.alternate_count;
    s.unwind_count = (unsigned)cmm_number(at, 2);
    s.unwinds = at + 2;
    at = s.unwinds + CMM_UNWIND_SIZE * s.unwind_count;
    s.cut_count = (unsigned)cmm_number(at, 2);
    s.cuts = at + 2;
    s.live = s.cuts + 2 * s.cut_count;
    at = s.live + (procedure_of(a)->variable_count + 7) / 8;
    s.span_count = (unsigned)cmm_number(at, 2);
    s.spans = at + 2;
    return s;
}

/* Variable `number` of the activation's procedure, which has it. */
static const uint8_t *variable_record(const Cmm_Activation *a, unsigned number)
{
    const Cmm_Image *image = a->program->image;
    return image->bytes + image->rows[procedure_of(a)->variables + number];
}

/* Continuation `number` of the activation's procedure, which has it. */
static const uint8_t *continuation_record(const Cmm_Activation *a, unsigned number)
{
    const Cmm_Image *image = a->program->image;
    const struct Cmm_ProcedureRow *row = procedure_of(a);
    return image->bytes + image->rows[row->variables + row->variable_count + number];
}

static Cmm_Text text_at(const uint8_t *at)
{
    return (Cmm_Text){(const char *)at + 1, at[0]};
}

/* ---- Memory */

static uint64_t stack_top(const Cmm_Program *program)
{
    return CMM_REGION_BASE + CMM_BELOW_STACK + program->stack_size;
}

/* The bytes of the region at an address that lies there. */
static uint8_t *in_region(const Cmm_Program *program, uint64_t address)
{
    return program->region + (address - CMM_REGION_BASE);
}

static void put_word(uint8_t *at, uint64_t value)
{
    for (unsigned i = 0; i < 8; i++)
        at[i] = (uint8_t)(value >> (8 * i));
}

void *Cmm_FindBytes(const Cmm_Program *program, uint64_t address, uint64_t count)
{
    uint64_t data_length = program->image->data_length, region_length = CMM_BELOW_STACK + program->stack_size;
    if (address >= CMM_DATA_BASE && address - CMM_DATA_BASE <= data_length && count <= data_length - (address - CMM_DATA_BASE))
        return program->data + (address - CMM_DATA_BASE);
    if (address >= CMM_REGION_BASE && address - CMM_REGION_BASE <= region_length && count <= region_length - (address - CMM_REGION_BASE))
        return program->region + (address - CMM_REGION_BASE);
    return NULL;
}

/* ---- The chain */

/* Puts the activation of a return address and a frame into `found`, whose places of registers are those that it has already. */
static Cmm_Result find_at(Cmm_Activation *found, uint64_t address, uint64_t frame)
{
    const Cmm_Program *program = found->program;
    const Cmm_Image *image = program->image;
    uint64_t top = stack_top(program);
    if (address == image->last && frame == top)
        return CMM_NO_ACTIVATION;
    if (frame % 16 != 0 || frame < CMM_REGION_BASE + CMM_BELOW_STACK || frame > top)
        return CMM_BROKEN_CHAIN;
    if (address < CMM_CODE_BASE || address - CMM_CODE_BASE >= image->code_length || address % 4 != 0)
        return CMM_BROKEN_CHAIN;
    uint32_t site = image->site_at[(address - CMM_CODE_BASE) / 4];
    if (site == 0 || image->procedures[image->sites[site - 1].procedure].frame_size > top - frame)
        return CMM_BROKEN_CHAIN;
    found->site = site - 1;
    found->frame = frame;
    return CMM_OK;
}

/* The return address and the frame behind an activation. */
static void point_after(const Cmm_Activation *a, uint64_t *address, uint64_t *frame)
{
    const struct Cmm_ProcedureRow *row = procedure_of(a);
    *address = cmm_number(in_region(a->program, a->frame + row->return_at), 8);
    *frame = a->frame + row->frame_size;
}

Cmm_Result Cmm_FirstActivation(Cmm_Program *program, Cmm_Activation *activation)
{
    Cmm_Activation found = {.program = program};
    Cmm_Result result = find_at(&found, program->registers[1], program->registers[2]);
    if (result == CMM_OK)
        *activation = found;
    return result;
}

Cmm_Result Cmm_NextActivation(Cmm_Activation *activation)
{
    const struct Cmm_ProcedureRow *row = procedure_of(activation);
    const uint8_t *saved = activation->program->image->bytes + row->saved;
    uint64_t address, frame, old_frame = activation->frame;
    point_after(activation, &address, &frame);
    Cmm_Result result = find_at(activation, address, frame);
    if (result != CMM_OK)
        return result;
    for (unsigned i = 0; i < row->saved_count; i++, saved += CMM_SAVED_SIZE)
        activation->saved[cmm_callee_saves(saved[0])] = (uint32_t)(old_frame + cmm_number(saved + 1, 4) - CMM_REGION_BASE);
    return CMM_OK;
}

Cmm_Result Cmm_FindBreak(Cmm_Program *program, const Cmm_Activation *from, uint64_t *frame, uint64_t *address)
{
    uint64_t at = program->registers[1], in = program->registers[2];
    Cmm_Activation a = {.program = program};
    Cmm_Result result;
    if (from != NULL)
        point_after(from, &at, &in);
    while ((result = find_at(&a, at, in)) == CMM_OK)
        point_after(&a, &at, &in);
    if (result != CMM_BROKEN_CHAIN)
        return result;
    *frame = in;
    *address = at;
    return CMM_OK;
}

/* ---- The yield */

unsigned Cmm_YieldCount(Cmm_Program *program)
{
    Cmm_Activation youngest;
    if (Cmm_FirstActivation(program, &youngest) != CMM_OK)
        return 0;
    unsigned count = site_record(&youngest)[CMM_SITE_YIELDED];
    return count == CMM_NO_YIELD ? 0 : count;
}

Cmm_Result Cmm_YieldValue(Cmm_Program *program, unsigned number, uint64_t *value)
{
    if (number >= Cmm_YieldCount(program))
        return CMM_NO_VALUE;
    *value = number < 8 ? program->registers[10 + number] : cmm_number(program->region + 8 * (number - 8), 8);
    return CMM_OK;
}

/* ---- What an activation shows */

Cmm_Text Cmm_ProcedureName(const Cmm_Activation *activation)
{
    return text_at(activation->program->image->bytes + procedure_of(activation)->name);
}

uint32_t Cmm_SiteNumber(const Cmm_Activation *activation)
{
    return (uint32_t)cmm_number(site_record(activation) + CMM_SITE_NUMBER, 4);
}

unsigned Cmm_SpanCount(const Cmm_Activation *activation)
{
    return site_of(activation).span_count;
}

bool Cmm_Span(const Cmm_Activation *activation, unsigned number, uint64_t *token, uint64_t *value)
{
    struct site s = site_of(activation);
    if (number >= s.span_count)
        return false;
    *token = cmm_number(s.spans + CMM_SPAN_SIZE * number, 8);
    *value = cmm_number(s.spans + CMM_SPAN_SIZE * number + 8, 8);
    return true;
}

uint64_t Cmm_GetDescriptor(const Cmm_Activation *activation, uint64_t token)
{
    struct site s = site_of(activation);
    for (unsigned i = 0; i < s.span_count; i++)
        if (cmm_number(s.spans + CMM_SPAN_SIZE * i, 8) == token)
            return cmm_number(s.spans + CMM_SPAN_SIZE * i + 8, 8);
    return 0;
}

unsigned Cmm_LocalVarCount(const Cmm_Activation *activation)
{
    return procedure_of(activation)->variable_count;
}

Cmm_Result Cmm_LocalVar(const Cmm_Activation *activation, unsigned number, Cmm_Variable *variable)
{
    if (number >= Cmm_LocalVarCount(activation))
        return CMM_NO_VARIABLE;
    const uint8_t *record = variable_record(activation, number);
    *variable = (Cmm_Variable){record[0], record[1] != 0, text_at(record + CMM_VARIABLE_KIND)};
    return CMM_OK;
}

Cmm_Result Cmm_FindLocalVar(const Cmm_Activation *activation, unsigned number, void **place)
{
    Cmm_Program *program = activation->program;
    if (number >= Cmm_LocalVarCount(activation))
        return CMM_NO_VARIABLE;
    if ((site_of(activation).live[number / 8] >> number % 8 & 1) == 0)
        return CMM_DEAD_VARIABLE;
    const uint8_t *record = variable_record(activation, number), *at = record + CMM_VARIABLE_KIND + 1 + record[CMM_VARIABLE_KIND];
    if (at[0] == CMM_IN_FRAME) {
        *place = in_region(program, activation->frame + cmm_number(at + 1, 4));
        return CMM_OK;
    }
    uint32_t saved = activation->saved[cmm_callee_saves(at[1])];
    *place = saved != 0 ? program->region + saved : (uint8_t *)&program->registers[at[1]];
    return CMM_OK;
}

static bool fits(uint64_t value, unsigned width)
{
    return width == 64 || value >> width == 0;
}

Cmm_Result Cmm_LocalVarValue(const Cmm_Activation *activation, unsigned number, uint64_t *value)
{
    void *place;
    Cmm_Result result = Cmm_FindLocalVar(activation, number, &place);
    if (result == CMM_OK)
        *value = cmm_number(place, variable_record(activation, number)[0] / 8);
    return result;
}

Cmm_Result Cmm_SetLocalVar(const Cmm_Activation *activation, unsigned number, uint64_t value)
{
    Cmm_Variable variable;
    void *place;
    Cmm_Result result = Cmm_LocalVar(activation, number, &variable);
    if (result != CMM_OK)
        return result;
    if (variable.is_invariant)
        return CMM_INVARIANT_VARIABLE;
    result = Cmm_FindLocalVar(activation, number, &place);
    if (result != CMM_OK)
        return result;
    if (!fits(value, variable.width))
        return CMM_DOES_NOT_FIT;
    put_word(place, value);
    return CMM_OK;
}

Cmm_Result Cmm_FindStackLabel(const Cmm_Activation *activation, unsigned number, uint64_t *address)
{
    const struct Cmm_ProcedureRow *row = procedure_of(activation);
    if (number >= row->stack_label_count)
        return CMM_NO_LABEL;
    *address = activation->frame + cmm_number(activation->program->image->bytes + row->stack_labels + 4 * number, 4);
    return CMM_OK;
}

/* ---- Where it goes on */

/* Whether these values fit the results of a site. */
static Cmm_Result fit_results(const struct site *s, const uint64_t *values, unsigned count)
{
    if (count != s->result_count)
        return CMM_OTHER_COUNT;
    for (unsigned i = 0; i < count; i++)
        if (!fits(values[i], s->results[i]))
            return CMM_DOES_NOT_FIT;
    return CMM_OK;
}

/* Whether these values fit the parameters of a continuation of the activation's procedure. */
static Cmm_Result fit_parameters(const Cmm_Activation *a, const uint8_t *continuation, const uint64_t *values, unsigned count)
{
    if (count != continuation[CMM_CONT_COUNT])
        return CMM_OTHER_COUNT;
    for (unsigned i = 0; i < count; i++) {
        unsigned parameter = (unsigned)cmm_number(continuation + CMM_CONT_FIRST + 2 * i, 2);
        if (!fits(values[i], variable_record(a, parameter)[0]))
            return CMM_DOES_NOT_FIT;
    }
    return CMM_OK;
}

/* Notes that the program goes on at this address, in this frame, with these values. */
static void note(Cmm_Program *program, uint64_t pc, uint64_t frame, const uint64_t *values, unsigned count)
{
    struct Cmm_Cont *cont = &program->cont;
    cont->is_set = true;
    cont->restores = false;
    cont->pc = pc;
    cont->frame = frame;
    cont->count = count;
    for (unsigned i = 0; i < count; i++)
        cont->values[i] = values[i];
}

Cmm_Result Cmm_SetReturnCont(Cmm_Program *program, unsigned exit, const uint64_t *values, unsigned count)
{
    Cmm_Activation youngest;
    Cmm_Result result = Cmm_FirstActivation(program, &youngest);
    if (result != CMM_OK)
        return result;
    struct site s = site_of(&youngest);
    if (exit > s.alternate_count || (exit == s.alternate_count && (s.record[CMM_SITE_FLAGS] & CMM_NEVER_RETURNS) != 0))
        return CMM_NO_EXIT;
    if (exit == s.alternate_count)
        result = fit_results(&s, values, count);
    else
        result = fit_parameters(&youngest, continuation_record(&youngest, (unsigned)cmm_number(s.alternates + 2 * exit, 2)), values, count);
    if (result == CMM_OK)
        note(program, program->registers[1] + 4 * exit, program->registers[2], values, count);
    return result;
}

Cmm_Result Cmm_SetUnwindCont(const Cmm_Activation *activation, unsigned exit, const uint64_t *values, unsigned count)
{
    Cmm_Program *program = activation->program;
    struct site s = site_of(activation);
    if (exit >= s.unwind_count)
        return CMM_NO_EXIT;
    const uint8_t *at = s.unwinds + CMM_UNWIND_SIZE * exit;
    Cmm_Result result = fit_parameters(activation, continuation_record(activation, (unsigned)cmm_number(at, 2)), values, count);
    if (result != CMM_OK)
        return result;
    note(program, cmm_number(at + 2, 8), activation->frame, values, count);
    program->cont.restores = true;
    for (unsigned i = 0; i < CMM_CALLEE_SAVES; i++)
        program->cont.saved[i] = activation->saved[i];
    return CMM_OK;
}

/* The continuation of those to which the site of the activation also cuts whose pair has this address; none where there is none. */
static const uint8_t *cut_of(const Cmm_Activation *a, uint64_t pair)
{
    struct site s = site_of(a);
    for (unsigned i = 0; i < s.cut_count; i++) {
        const uint8_t *continuation = continuation_record(a, (unsigned)cmm_number(s.cuts + 2 * i, 2));
        if (a->frame + cmm_number(continuation, 4) == pair)
            return continuation;
    }
    return NULL;
}

Cmm_Result Cmm_SetCutToCont(Cmm_Program *program, uint64_t continuation, const uint64_t *values, unsigned count)
{
    Cmm_Activation a;
    const uint8_t *found = NULL;
    Cmm_Result result = Cmm_FirstActivation(program, &a);
    while (result == CMM_OK && (found = cut_of(&a, continuation)) == NULL)
        result = Cmm_NextActivation(&a);
    if (found == NULL)
        return result == CMM_NO_ACTIVATION ? CMM_NO_CONTINUATION : result;
    result = fit_parameters(&a, found, values, count);
    if (result == CMM_OK)
        note(program, cmm_number(found + CMM_CONT_CODE, 8), a.frame, values, count);
    return result;
}

bool Cmm_TakeCont(Cmm_Program *program)
{
    struct Cmm_Cont *cont = &program->cont;
    if (!cont->is_set)
        return false;
    cont->is_set = false;
    for (unsigned i = 0; i < CMM_CALLEE_SAVES; i++)
        if (cont->restores && cont->saved[i] != 0)
            program->registers[cmm_register(i)] = cmm_number(program->region + cont->saved[i], 8);
    for (unsigned i = 0; i < cont->count; i++) {
        if (i < 8)
            program->registers[10 + i] = cont->values[i];
        else
            put_word(program->region + 8 * (i - 8), cont->values[i]);
    }
    program->registers[2] = cont->frame;
    program->pc = cont->pc;
    return true;
}
