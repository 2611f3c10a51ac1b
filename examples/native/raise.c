/* Exceptions by handler tables. A call that handles exceptions stands in a span of the token HANDLERS, whose descriptor is the address of a table in data: for each tag that it
 * handles two words, the tag and which of the continuations of `also unwinds to` handles it, and a 0 behind the last. `yield (RAISE, tag, value)` looks for the nearest such
 * activation, and goes on there with the value. No path on which nothing is raised does anything for this.
 */
#include "client.h"

enum { HANDLERS = 1, MOST_HANDLERS = 64 };

/* The word at an address in the program's memory, 0 where there is none. */
static uint64_t word_at(const Cmm_Program *program, uint64_t address)
{
    const uint64_t *place = address % 8 == 0 ? Cmm_FindBytes(program, address, 8) : NULL;
    return place == NULL ? 0 : *place;
}

/* Whether a table has a handler of a tag: which continuation it is. */
static bool find_handler(const Cmm_Program *program, uint64_t table, uint64_t tag, unsigned *exit)
{
    for (unsigned i = 0; i < MOST_HANDLERS; i++, table += 16) {
        uint64_t handled = word_at(program, table);
        if (handled == 0)
            return false;
        if (handled == tag) {
            *exit = (unsigned)word_at(program, table + 8);
            return true;
        }
    }
    return false;
}

bool raise_exception(Cmm_Program *program)
{
    Cmm_Activation a;
    uint64_t tag, value;
    unsigned exit;
    if (Cmm_YieldValue(program, 1, &tag) != CMM_OK || Cmm_YieldValue(program, 2, &value) != CMM_OK)
        return false;
    for (Cmm_Result result = Cmm_FirstActivation(program, &a); result == CMM_OK; result = Cmm_NextActivation(&a))
        if (find_handler(program, Cmm_GetDescriptor(&a, HANDLERS), tag, &exit))
            return Cmm_SetUnwindCont(&a, exit, &value, 1) == CMM_OK;
    say("not handled: ");
    say_number(tag);
    say("\n");
    trace(program);
    return false;
}
