/* Frames walked in a second over a snapshot, and by glibc's `backtrace`: walked_frames IMAGE SNAPSHOT. The snapshot is of a program that has stopped below many activations. */
#include <execinfo.h>
#include <stdio.h>
#include <stdlib.h>
#include <string.h>
#include <time.h>

#include "../runtime/cmm_runtime.h"

enum { STACK_AT = 72, REGISTERS_AT = 80, DATA_AT = 344, TIMES = 20000, DEPTH = 98 };

static uint8_t *bytes_of(const char *path, size_t *length)
{
    FILE *file = fopen(path, "rb");
    if (file == NULL)
        exit(1);
    fseek(file, 0, SEEK_END);
    *length = (size_t)ftell(file);
    rewind(file);
    uint8_t *bytes = malloc(*length);
    if (fread(bytes, 1, *length, file) != *length)
        exit(1);
    fclose(file);
    return bytes;
}

static double now(void)
{
    struct timespec time;
    clock_gettime(CLOCK_MONOTONIC, &time);
    return (double)time.tv_sec + 1e-9 * (double)time.tv_nsec;
}

static unsigned long walked;

static void walk(Cmm_Program *program)
{
    Cmm_Activation a;
    for (Cmm_Result result = Cmm_FirstActivation(program, &a); result == CMM_OK; result = Cmm_NextActivation(&a))
        walked++;
}

/* The same depth in C, at whose end `backtrace` goes over the frames. */
static __attribute__((noinline)) unsigned down(unsigned depth)
{
    static void *frames[256];
    if (depth == 0) {
        for (unsigned i = 0; i < TIMES; i++)
            walked += (unsigned long)backtrace(frames, 256);
        return 0;
    }
    unsigned below = down(depth - 1);
    __asm__ volatile("" ::: "memory"); /* (so that this is no loop) */
    return below + depth;
}

static void say(const char *what, double begun)
{
    double taken = now() - begun;
    printf("%s: %lu frames in %.3f s, %.1f million a second, %.0f ns each\n", what, walked, taken, (double)walked / taken / 1e6, taken / (double)walked * 1e9);
    walked = 0;
}

int main(int count, char **words)
{
    size_t image_length, length;
    if (count != 3)
        return 2;
    uint8_t *image_bytes = bytes_of(words[1], &image_length), *snapshot = bytes_of(words[2], &length);
    Cmm_Image image;
    if (Cmm_ReadImage(&image, image_bytes, image_length, calloc(1, Cmm_ImageRoom(image_bytes, image_length))) != CMM_OK)
        return 1;
    Cmm_Program program = {.image = &image, .data = snapshot + DATA_AT, .region = snapshot + DATA_AT + image.data_length};
    memcpy(&program.stack_size, snapshot + STACK_AT, 8);
    memcpy(program.registers, snapshot + REGISTERS_AT, sizeof program.registers);
    double begun = now();
    for (unsigned i = 0; i < TIMES; i++)
        walk(&program);
    say("walker over a snapshot", begun);
    begun = now();
    down(DEPTH);
    say("backtrace of glibc", begun);
    return 0;
}
