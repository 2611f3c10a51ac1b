/* A run-time system in C for programs that yield: exceptions, memory, stack traces. */
#ifndef CLIENT_H
#define CLIENT_H

#include "../../runtime/cmm_runtime.h"

/* What a program asks for: the first value of a yield. */
enum { RAISE = 1, COLLECT = 2, TRACE = 3 };

/* Whether the answer has told where the program goes on. */
bool raise_exception(Cmm_Program *program);
bool collect(Cmm_Program *program);
bool trace(Cmm_Program *program);

/* To standard error. */
void say(const char *text);
void say_text(Cmm_Text text);
void say_number(uint64_t number);

#endif
