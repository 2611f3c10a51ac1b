/* A collector. The program's memory are the cells from its label `cells` up to `cells_end`: two words each, a value and the address of the next cell, or 0. The free ones are
 * a list that begins at `free`. Its roots are the live variables of kind "pointer" in all activations, wherever they are. What no root leads to is free afterwards.
 */
#include "client.h"

enum { MOST_CELLS = 1024 };

struct cell {
    uint64_t value, next;
};

struct heap {
    uint64_t begin;
    unsigned count;
    struct cell *cells;
    uint64_t *free;
    bool is_marked[MOST_CELLS];
};

static Cmm_Text name(const char *spelling)
{
    Cmm_Text text = {spelling, 0};
    while (spelling[text.length] != 0)
        text.length++;
    return text;
}

static bool find_heap(Cmm_Program *program, struct heap *heap)
{
    uint64_t end, free;
    if (Cmm_FindLabel(program->image, name("cells"), &heap->begin) != CMM_OK || Cmm_FindLabel(program->image, name("cells_end"), &end) != CMM_OK)
        return false;
    if (Cmm_FindLabel(program->image, name("free"), &free) != CMM_OK || end < heap->begin || (end - heap->begin) / sizeof(struct cell) > MOST_CELLS)
        return false;
    heap->count = (unsigned)((end - heap->begin) / sizeof(struct cell));
    heap->cells = Cmm_FindBytes(program, heap->begin, end - heap->begin);
    heap->free = Cmm_FindBytes(program, free, 8);
    return heap->cells != NULL && heap->free != NULL;
}

/* Marks the cells that an address leads to. */
static void mark(struct heap *heap, uint64_t address)
{
    while (address >= heap->begin && (address - heap->begin) / sizeof(struct cell) < heap->count) {
        uint64_t number = (address - heap->begin) / sizeof(struct cell);
        if (heap->is_marked[number])
            return;
        heap->is_marked[number] = true;
        address = heap->cells[number].next;
    }
}

static bool is_pointer(Cmm_Text kind)
{
    Cmm_Text pointer = name("pointer");
    size_t same = 0;
    while (same < pointer.length && same < kind.length && kind.bytes[same] == pointer.bytes[same])
        same++;
    return kind.length == pointer.length && same == kind.length;
}

/* Marks what the variables of an activation lead to. */
static void mark_roots(struct heap *heap, const Cmm_Activation *a)
{
    Cmm_Variable variable;
    uint64_t value;
    for (unsigned i = 0; Cmm_LocalVar(a, i, &variable) == CMM_OK; i++)
        if (is_pointer(variable.kind) && Cmm_LocalVarValue(a, i, &value) == CMM_OK)
            mark(heap, value);
}

/* Puts each cell that is not marked into the list of free ones. Answers how many are marked. */
static unsigned sweep(struct heap *heap)
{
    unsigned marked = 0;
    *heap->free = 0;
    for (unsigned i = 0; i < heap->count; i++) {
        if (heap->is_marked[i]) {
            marked++;
            continue;
        }
        heap->cells[i] = (struct cell){0, *heap->free};
        *heap->free = heap->begin + i * sizeof(struct cell);
    }
    return marked;
}

bool collect(Cmm_Program *program)
{
    struct heap heap = {.count = 0};
    Cmm_Activation a;
    Cmm_Result result;
    if (!find_heap(program, &heap))
        return false;
    for (result = Cmm_FirstActivation(program, &a); result == CMM_OK; result = Cmm_NextActivation(&a))
        mark_roots(&heap, &a);
    if (result != CMM_NO_ACTIVATION)
        return false;
    say("kept ");
    say_number(sweep(&heap));
    say("\n");
    return Cmm_SetReturnCont(program, 0, NULL, 0) == CMM_OK;
}
