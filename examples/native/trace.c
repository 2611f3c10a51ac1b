/* A stack trace: a line for each activation, with the values of its live variables. */
#include "client.h"

static void say_activation(const Cmm_Activation *a)
{
    uint64_t value;
    say("  ");
    say_text(Cmm_ProcedureName(a));
    say(", site ");
    say_number(Cmm_SiteNumber(a));
    for (unsigned i = 0; i < Cmm_LocalVarCount(a); i++) {
        if (Cmm_LocalVarValue(a, i, &value) != CMM_OK)
            continue;
        say(", v");
        say_number(i);
        say(" = ");
        say_number(value);
    }
    say("\n");
}

bool trace(Cmm_Program *program)
{
    Cmm_Activation a;
    Cmm_Result result;
    for (result = Cmm_FirstActivation(program, &a); result == CMM_OK; result = Cmm_NextActivation(&a))
        say_activation(&a);
    if (result == CMM_BROKEN_CHAIN)
        say("  the stack is broken here\n");
    return Cmm_SetReturnCont(program, 0, NULL, 0) == CMM_OK;
}
