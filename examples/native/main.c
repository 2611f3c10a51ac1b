/* client IMAGE: runs the program of an image, and answers its yields. The exit status is 0 where it has ended by itself, and else 1. */
#include "client.h"

static Cmm_Native native;
static Cmm_Streams streams;

static bool answer(Cmm_Program *program)
{
    uint64_t code;
    if (Cmm_YieldValue(program, 0, &code) != CMM_OK)
        return false;
    switch (code) {
    case RAISE: return raise_exception(program);
    case COLLECT: return collect(program);
    case TRACE: return trace(program);
    default: return false;
    }
}

int main(int count, char **words)
{
    Cmm_Event event;
    if (count != 2 || Cmm_Load(&native, words[1], CMM_USUAL_STACK, Cmm_StreamsHost(&streams)) != CMM_OK) {
        say("no image\n");
        return 1;
    }
    do
        event = Cmm_Resume(&native);
    while (event == CMM_YIELDED && answer(&native.program));
    Cmm_FlushStreams(&streams);
    if (event != CMM_ENDED)
        return 1;
    say("result ");
    say_number(Cmm_ResultOf(&native));
    say("\n");
    return 0;
}

void say(const char *text)
{
    size_t length = 0;
    while (text[length] != 0)
        length++;
    Cmm_Write(2, text, length);
}

void say_text(Cmm_Text text)
{
    Cmm_Write(2, text.bytes, text.length);
}

void say_number(uint64_t number)
{
    char digits[20];
    size_t first = sizeof digits;
    do {
        digits[--first] = (char)('0' + number % 10);
        number /= 10;
    } while (number != 0);
    Cmm_Write(2, digits + first, sizeof digits - first);
}
