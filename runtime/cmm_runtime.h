/* The run-time interface of programs that `cmm` makes, for clients in C.
 *
 * A client walks the stack of a program that has stopped at a `yield`, looks at its variables and changes them, and says where it goes on. The calls have the names of
 * the C-- papers where these have one, behind `Cmm_` (docs/RUNTIME.md, "From C"). They go by the tables of the program's image (docs/FORMATS.md, "An image", version 2).
 *
 * There are two parts. What is declared up to "Native runs" is in cmm_runtime.c: it is plain C11 without a library, runs on any little-endian machine, and takes a
 * stopped program from wherever its registers and its memory are. What follows is in cmm_native.c and cmm_enter.S: it runs a program on RISC-V Linux, or under
 * qemu-riscv64.
 *
 * No call trusts what it is given but this: a Cmm_Program whose image Cmm_ReadImage has taken, whose bytes have not changed since, and whose memory has the lengths
 * that are stated; and an activation that a call here has found in it. Whatever the tables, the registers and the stack say then, a call reads and writes only there,
 * and ends. A call that does not answer CMM_OK has changed nothing. Not for several threads at once.
 */
#ifndef CMM_RUNTIME_H
#define CMM_RUNTIME_H

#include <stdbool.h>
#include <stddef.h>
#include <stdint.h>

/* Where everything lies in memory at run time (docs/ABI.md). The stack begins CMM_BELOW_STACK bytes behind the region's address, and grows down from its end. */
#define CMM_CODE_BASE UINT64_C(0x10000)
#define CMM_DATA_BASE UINT64_C(0x40000000)
#define CMM_REGION_BASE UINT64_C(0x60000000)
#define CMM_BELOW_STACK UINT64_C(0x1000)
#define CMM_USUAL_STACK UINT64_C(0x100000)
#define CMM_MOST_STACK UINT64_C(0x10000000)

/* How many values a yield has at most, and an exit takes. */
#define CMM_MOST_VALUES 64

/* The registers 9 and 18 to 27, which a procedure gives back as it got them. */
#define CMM_CALLEE_SAVES 11

/* What a call comes to. */
typedef enum Cmm_Result {
    CMM_OK,                 /* it is done, or it is found */
    CMM_NO_ACTIVATION,      /* there is no such activation: the chain of frames ends */
    CMM_BROKEN_CHAIN,       /* the chain of frames breaks; Cmm_FindBreak tells where */
    CMM_NO_VARIABLE,        /* the procedure has no variable of this number */
    CMM_DEAD_VARIABLE,      /* the variable is dead at the site at which the activation is suspended: it has no value */
    CMM_INVARIANT_VARIABLE, /* the variable is declared `invariant`, so it is not set */
    CMM_DOES_NOT_FIT,       /* a value does not fit the width that takes it */
    CMM_NO_EXIT,            /* the site has no such exit, or it is the normal exit of a site that never returns */
    CMM_OTHER_COUNT,        /* the exit takes another count of values */
    CMM_NO_CONTINUATION,    /* the value is no continuation to which the site of a suspended activation also cuts */
    CMM_NO_LABEL,           /* the procedure has no stackdata label of this number, or the image no label of this name */
    CMM_NO_VALUE,           /* the yield has no value of this number */
    CMM_BAD_IMAGE,          /* the bytes are no image of version 2; the image's fault tells why */
    CMM_FILE_FAULT,         /* the file cannot be read */
    CMM_NO_MEMORY,          /* the system gives no memory, or none at an address that is needed */
    CMM_STRANGE_CODE,       /* an ECALL stands without the word before it that puts its number into register 5; so `cmm` makes none */
    CMM_BAD_STACK           /* the size of the stack is no multiple of 16, or above CMM_MOST_STACK */
} Cmm_Result;

/* A text of the tables. It does not end with a zero, and may have any byte in it. */
typedef struct Cmm_Text {
    const char *bytes;
    size_t length;
} Cmm_Text;

/* ---- Images */

/* The first rule of the format that bytes break, 50 to 56, at the field that begins at this offset; rule 0 where they break none. */
typedef struct Cmm_ImageFault {
    unsigned rule;
    uint64_t offset;
} Cmm_ImageFault;

/* Rows of the tables, as Cmm_ReadImage notes them: the members are its own. An offset is one in the bytes of the image. */
struct Cmm_ProcedureRow {
    uint32_t name, frame_size, return_at;
    uint32_t saved;             /* offset of the first saved register */
    uint32_t variables;         /* which of the image's rows is the first variable; the continuations follow */
    uint32_t stack_labels;      /* offset of the first */
    uint16_t variable_count, stack_label_count, continuation_count;
    uint8_t saved_count;
};

struct Cmm_SiteRow {
    uint32_t procedure; /* its number */
    uint32_t offset;    /* of its return address */
};

/* An image that has been read. */
typedef struct Cmm_Image {
    Cmm_ImageFault fault;
    uint64_t code_length, data_length;
    uint64_t start; /* the address at which a run begins */
    uint64_t last;  /* the return address of main's call */
    uint32_t procedure_count, site_count, label_count;
    /* The rest is for the calls below. */
    const uint8_t *bytes;
    size_t length;
    uint32_t first_label;
    struct Cmm_ProcedureRow *procedures;
    struct Cmm_SiteRow *sites;
    uint32_t *rows;    /* offsets of variables and continuations */
    uint32_t *site_at; /* for each word of the code, the number of the site with this return address, and 1; 0 where there is none */
} Cmm_Image;

/* How many bytes of memory Cmm_ReadImage needs beside these bytes of an image. It is at most three times their length, and a little. */
size_t Cmm_ImageRoom(const void *bytes, size_t length);

/* Reads the bytes of an image, every field of them. The bytes and the room, of Cmm_ImageRoom bytes, all 0 and at a multiple of 8, have to stay as they are as long as the
 * image is used. CMM_BAD_IMAGE: `image->fault` tells the rule and the place, as `cmm run` does, but that an image of version 1 breaks rule 51: `cmm migrate` makes
 * it one of version 2. */
Cmm_Result Cmm_ReadImage(Cmm_Image *image, const void *bytes, size_t length, void *room);

/* The address of the data label that is exported with this link name. CMM_NO_LABEL where none is. */
Cmm_Result Cmm_FindLabel(const Cmm_Image *image, Cmm_Text name, uint64_t *address);

/* ---- A stopped program */

/* Where a program goes on when it is resumed: what the calls "Where it goes on" have noted. */
struct Cmm_Cont {
    bool is_set;
    bool restores; /* whether the callee-saves registers get the values that they have in the activation */
    uint64_t pc, frame;
    uint32_t saved[CMM_CALLEE_SAVES];
    unsigned count;
    uint64_t values[CMM_MOST_VALUES];
};

/* A stopped program: its image, its registers and its memory. */
typedef struct Cmm_Program {
    uint64_t registers[32];
    uint64_t pc;
    const Cmm_Image *image;
    uint8_t *data;       /* what the program has from CMM_DATA_BASE on, of the length that the image tells */
    uint8_t *region;     /* what it has from CMM_REGION_BASE on: CMM_BELOW_STACK bytes, and the stack */
    uint64_t stack_size; /* a multiple of 16, at most CMM_MOST_STACK */
    struct Cmm_Cont cont;
} Cmm_Program;

/* An activation, suspended at a site. It is a value: a copy of it is as good, until the program is resumed. The members are for the calls below. */
typedef struct Cmm_Activation {
    Cmm_Program *program;
    uint64_t frame;
    uint32_t site;
    uint32_t saved[CMM_CALLEE_SAVES]; /* how far from the region's address the value of each callee-saves register is; 0 where it is in the register */
} Cmm_Activation;

/* How many values the yield has at which the program is stopped; 0 where its youngest activation is suspended at no yield. */
unsigned Cmm_YieldCount(Cmm_Program *program);

/* Value `number` of the yield. CMM_NO_VALUE past the last. */
Cmm_Result Cmm_YieldValue(Cmm_Program *program, unsigned number, uint64_t *value);

/* The bytes of the program's memory at these addresses: data, or the region. None where they do not all lie in one of these. */
void *Cmm_FindBytes(const Cmm_Program *program, uint64_t address, uint64_t count);

/* ---- The walk */

/* The youngest activation. CMM_NO_ACTIVATION where there is none; CMM_BROKEN_CHAIN where the chain breaks at once. */
Cmm_Result Cmm_FirstActivation(Cmm_Program *program, Cmm_Activation *activation);

/* The activation to which this one returns, put in its place. CMM_NO_ACTIVATION where it is the oldest; CMM_BROKEN_CHAIN where the chain breaks behind it. The activation
 * stays as it was then. */
Cmm_Result Cmm_NextActivation(Cmm_Activation *activation);

/* Where the chain breaks, from this activation on, or from the youngest on where it is NULL: the frame that would be next, and the return address that leads to no activation
 * there. CMM_NO_ACTIVATION where the chain ends, and does not break. */
Cmm_Result Cmm_FindBreak(Cmm_Program *program, const Cmm_Activation *from, uint64_t *frame, uint64_t *address);

/* The name of the activation's procedure, as its unit spells it. */
Cmm_Text Cmm_ProcedureName(const Cmm_Activation *activation);

/* The number of the site, in its procedure, at which the activation is suspended. */
uint32_t Cmm_SiteNumber(const Cmm_Activation *activation);

/* How many spans the site lies in, each of another token: of those of one token the innermost counts. */
unsigned Cmm_SpanCount(const Cmm_Activation *activation);

/* The token and the value of span `number`, in ascending order of tokens. False past the last. */
bool Cmm_Span(const Cmm_Activation *activation, unsigned number, uint64_t *token, uint64_t *value);

/* The descriptor: the value of the innermost span of the token at the site, 0 where it is in none. */
uint64_t Cmm_GetDescriptor(const Cmm_Activation *activation, uint64_t token);

/* What a variable is declared as. */
typedef struct Cmm_Variable {
    unsigned width;    /* 8, 16, 32 or 64 */
    bool is_invariant; /* whether it is never set */
    Cmm_Text kind;     /* the text before its type; empty without one */
} Cmm_Variable;

/* How many variables the activation's procedure has: formals first, then locals, in the order of the text. */
unsigned Cmm_LocalVarCount(const Cmm_Activation *activation);

/* What variable `number` is declared as. CMM_NO_VARIABLE past the last. */
Cmm_Result Cmm_LocalVar(const Cmm_Activation *activation, unsigned number, Cmm_Variable *variable);

/* Where variable `number` is: its 8 bytes, little-endian, of which the value is those of its width that come first. They are a slot of a frame, where a younger frame
 * has saved a register, or a register of the stopped program; what is written there, the program has when it is resumed. Zeros have to stand above the width. The
 * address is a multiple of 8 in each image that `cmm` makes. CMM_NO_VARIABLE past the last; CMM_DEAD_VARIABLE where it has no value. */
Cmm_Result Cmm_FindLocalVar(const Cmm_Activation *activation, unsigned number, void **place);

/* The value of variable `number`. CMM_NO_VARIABLE, CMM_DEAD_VARIABLE as above. */
Cmm_Result Cmm_LocalVarValue(const Cmm_Activation *activation, unsigned number, uint64_t *value);

/* Gives variable `number` a value. CMM_NO_VARIABLE, CMM_INVARIANT_VARIABLE, CMM_DEAD_VARIABLE, CMM_DOES_NOT_FIT, in this order. */
Cmm_Result Cmm_SetLocalVar(const Cmm_Activation *activation, unsigned number, uint64_t value);

/* The address of stackdata label `number` of the activation, for Cmm_FindBytes. CMM_NO_LABEL past the last. */
Cmm_Result Cmm_FindStackLabel(const Cmm_Activation *activation, unsigned number, uint64_t *address);

/* ---- Where it goes on: one of these before the program is resumed. Each notes it and changes nothing else, and the last one that was done counts. */

/* The youngest activation goes on at exit `exit` of its site, as by `return <exit/n> (values)`: alternate exits first, the normal one behind them. CMM_NO_ACTIVATION,
 * CMM_BROKEN_CHAIN, CMM_NO_EXIT, CMM_OTHER_COUNT, CMM_DOES_NOT_FIT. */
Cmm_Result Cmm_SetReturnCont(Cmm_Program *program, unsigned exit, const uint64_t *values, unsigned count);

/* The activation goes on at continuation `exit` of those to which its site also unwinds, with the values for its parameters, and the younger ones are gone. CMM_NO_EXIT,
 * CMM_OTHER_COUNT, CMM_DOES_NOT_FIT. */
Cmm_Result Cmm_SetUnwindCont(const Cmm_Activation *activation, unsigned exit, const uint64_t *values, unsigned count);

/* Control is cut to a continuation: of the youngest activation whose site also cuts to it. No callee-saves register is restored. CMM_NO_CONTINUATION; CMM_BROKEN_CHAIN
 * where the chain breaks before one is found; CMM_OTHER_COUNT, CMM_DOES_NOT_FIT. */
Cmm_Result Cmm_SetCutToCont(Cmm_Program *program, uint64_t continuation, const uint64_t *values, unsigned count);

/* Makes registers and memory those with which the program goes on at what has been noted, if anything has. Cmm_Resume does this; so does who executes a program by other
 * means. False where nothing has been noted. */
bool Cmm_TakeCont(Cmm_Program *program);

/* ---- Native runs: RISC-V Linux, or qemu-riscv64. */

/* Where the bytes of a program come from and go to. */
typedef struct Cmm_Host {
    int (*get_byte)(void *context);           /* the next byte, -1 at the end, another negative number where it cannot be read */
    bool (*put_byte)(void *context, int byte); /* false where it cannot be written */
    void *context;
} Cmm_Host;

/* Why a program has stopped. */
typedef enum Cmm_Event {
    CMM_YIELDED,      /* at a yield: it may be walked, changed and resumed */
    CMM_ENDED,        /* `main` has returned, and the run is over */
    CMM_STACK_LIMIT,  /* the stack would have passed its limit, and the run is over */
    CMM_INPUT_FAULT,  /* a byte could not be read, and the run is over */
    CMM_OUTPUT_FAULT, /* a byte could not be written, and the run is over */
    CMM_NOT_SET       /* nothing tells where the program goes on, so it has not moved */
} Cmm_Event;

/* A program that is run. It has its addresses to itself: there is one at a time. */
typedef struct Cmm_Native {
    Cmm_Program program;  /* this first: cmm_enter.S knows where its registers are */
    uint64_t own_stack;   /* the client's register 2 while the program runs */
    uint64_t was_stopped; /* where the program goes for a request */
    Cmm_Host host;
    Cmm_Image image;
} Cmm_Native;

/* Loads the image in a file, with a stack of so many bytes, a multiple of 16. It is at its beginning then: Cmm_Resume starts it. CMM_FILE_FAULT, CMM_BAD_IMAGE (the fault is in
 * `native->image`), CMM_BAD_STACK, CMM_NO_MEMORY, CMM_STRANGE_CODE. */
Cmm_Result Cmm_Load(Cmm_Native *native, const char *path, uint64_t stack_size, Cmm_Host host);

/* Runs the program from where it is to go on up to its next yield, or to its end. Activations that were found before are void afterwards. What traps ends the process by
 * a signal, as the C language's unchecked errors do. */
Cmm_Event Cmm_Resume(Cmm_Native *native);

/* The result of a program that has ended. */
uint64_t Cmm_ResultOf(const Cmm_Native *native);

/* Standard input and output, with a buffer each; output is written where the buffer is full and before input is read. */
typedef struct Cmm_Streams {
    size_t written, read, taken;
    uint8_t output[65536], input[65536];
} Cmm_Streams;

/* A host over standard streams, whose buffers are empty (all of it 0) at the beginning. */
Cmm_Host Cmm_StreamsHost(Cmm_Streams *streams);

/* Writes what is in the output's buffer. False where it cannot be written. */
bool Cmm_FlushStreams(Cmm_Streams *streams);

/* For clients without a library, with cmm_start.S, which calls `main`: writes bytes to an open file, by its number, and is false where it cannot; and reads a file into memory
 * of its own, with a zero behind it. CMM_FILE_FAULT, CMM_NO_MEMORY. */
bool Cmm_Write(int file, const void *bytes, size_t length);
Cmm_Result Cmm_ReadFile(const char *path, uint8_t **bytes, size_t *length);

#endif
