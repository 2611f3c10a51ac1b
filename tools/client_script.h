/* Client scripts, as `cmm run --client` takes them, over the run-time interface in C: docs/FORMATS.md, "A script", and docs/RUNTIME.md, "The client". */
#ifndef CLIENT_SCRIPT_H
#define CLIENT_SCRIPT_H

#include "../runtime/cmm_runtime.h"

enum { LONGEST_SCRIPT = 65536, MOST_LINES = LONGEST_SCRIPT / 5 + 1, MOST_WORDS = LONGEST_SCRIPT / 2 + 1 };
enum { UNKNOWN_LINE = 80, REPEATED_BLOCK = 81, SCRIPT_TOO_LONG = 82 };

/* A value: a number, or which value of the yield. */
struct value {
    bool is_yielded;
    uint64_t number;
};

enum command_kind { LIST, YOUNGEST, NEXT, STOP, DESC, VAR, SEEK, SET, POKE, RETURN, UNWIND, CUT };

/* A command: its number (a token, a variable, an offset, an exit), its value, its label, and the values behind, which are those of the script from `first` on. */
struct command {
    enum command_kind kind;
    uint64_t number;
    struct value value;
    Cmm_Text label;
    unsigned first, count;
};

/* A block: its code, unless it is `other`, and its commands, which are those of the script from `first` on. */
struct block {
    bool is_other;
    uint64_t code;
    unsigned first, count;
};

struct script {
    unsigned block_count, command_count, value_count;
    struct block blocks[MOST_LINES];
    struct command commands[MOST_LINES];
    struct value values[MOST_WORDS];
};

/* Lines on their way to the log. */
struct lines {
    bool (*write)(const char *bytes, size_t length);
    bool has_failed;
    size_t used;
    char bytes[65536];
};

void put_bytes(struct lines *to, const char *bytes, size_t length);
void put_text(struct lines *to, const char *text);
void put_number(struct lines *to, uint64_t number);
void put_address(struct lines *to, uint64_t address);

/* Whether all lines were written. */
bool flush_lines(struct lines *to);

/* Reads a script into one that is all 0, which keeps parts of the bytes. False where it breaks a rule: the first that it breaks, and the line. */
bool read_script(struct script *script, const char *bytes, size_t length, unsigned *rule, unsigned *line);

enum answer { RESUMES, STOPS, IS_TORN };

/* Does what a script says at a yield. Where the chain of frames breaks, at this frame and address. */
enum answer answer_yield(const struct script *script, Cmm_Program *program, struct lines *log, uint64_t *frame, uint64_t *address);

/* Writes the walk of a stopped program, `end` behind it; STOPS then. */
enum answer write_walk(Cmm_Program *program, struct lines *to, uint64_t *frame, uint64_t *address);

/* The number that a text spells, decimal or behind `0x` hexadecimal. False where it spells none below 2^64. */
bool number_of(Cmm_Text text, uint64_t *number);

#endif
