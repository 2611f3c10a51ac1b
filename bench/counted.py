"""What the benches share that run a unit beside the same algorithm in C: how many instructions each executes, and how long a command takes.

Of a unit it is the least limit on instructions with which it ends, by bisection: the run is the same every time. Of C it is what QEMU translates and
executes, by a plugin that is compiled here: a program without a C library, whose count for an empty function is taken off.
"""
import os
import subprocess
import time

FLAGS = "-march=rv64im -mabi=lp64 -mno-relax -static -nostdlib -ffreestanding -fno-builtin -fno-tree-loop-distribute-patterns".split()
COMPILER = "riscv64-linux-gnu-gcc"
EMULATOR = "qemu-riscv64"

# Calls `run` so often, writes its last result, eight bytes, and ends.
START = """
.globl _start
_start:
    li s1, {times}
again:
    call run
    addi s1, s1, -1
    bnez s1, again
    addi sp, sp, -16
    sd a0, 0(sp)
    li a7, 64
    li a0, 1
    mv a1, sp
    li a2, 8
    ecall
    li a7, 93
    li a0, 0
    ecall
"""

# Adds the length of each block of code that is executed, and tells the sum at the end. The declarations are those of qemu-plugin.h.
PLUGIN = """
#include <stdint.h>
#include <stdio.h>
struct qemu_plugin_tb;
extern void qemu_plugin_register_vcpu_tb_trans_cb(uint64_t, void (*)(uint64_t, struct qemu_plugin_tb *));
extern size_t qemu_plugin_tb_n_insns(const struct qemu_plugin_tb *);
extern void qemu_plugin_register_vcpu_tb_exec_inline(struct qemu_plugin_tb *, int, void *, uint64_t);
extern void qemu_plugin_register_atexit_cb(uint64_t, void (*)(uint64_t, void *), void *);
int qemu_plugin_version = 1;
static uint64_t count;
static void translated(uint64_t id, struct qemu_plugin_tb *block)
{
    qemu_plugin_register_vcpu_tb_exec_inline(block, 0, &count, qemu_plugin_tb_n_insns(block));
}
static void ended(uint64_t id, void *data) { fprintf(stderr, "%llu", (unsigned long long)count); }
int qemu_plugin_install(uint64_t id, const void *info, int argc, char **argv)
{
    qemu_plugin_register_vcpu_tb_trans_cb(id, translated);
    qemu_plugin_register_atexit_cb(id, ended, 0);
    return 0;
}
"""


def written(folder, name, text):
    """The path of a file with this text."""
    path = os.path.join(folder, name)
    with open(path, "w", encoding="ascii") as file:
        file.write(text)
    return path


def line_of(program, path, *words):
    """What the program says last of a run, behind the lines of a client."""
    ran = subprocess.run([program, "exec", path, *words], stdin=subprocess.DEVNULL, stdout=subprocess.DEVNULL, stderr=subprocess.PIPE, check=False)
    return ran.stderr.decode().strip().split("\n")[-1]


def instructions(program, path, *words):
    """How many instructions a unit takes, and its result. It has to end within 2^32."""
    def ends(limit):
        return line_of(program, path, *words, "--steps", str(limit)) != "step limit"

    least, most = 0, 1024
    while not ends(most):
        least, most = most, most * 2
        assert most <= 2**32, path
    while most - least > 1:
        middle = (least + most) // 2
        least, most = (least, middle) if ends(middle) else (middle, most)
    line = line_of(program, path, *words)
    assert line.startswith("result "), line
    return most, int(line.split()[1])


def compiled(folder, source, level, times=1):
    """The path of a program that calls the function `run` of a C source so often."""
    built = os.path.join(folder, "built")
    files = [written(folder, "start.s", START.format(times=times)), written(folder, "run.c", source)]
    subprocess.run([COMPILER, level, *FLAGS, "-o", built, *files], check=True)
    return built


def executed(folder, source, level):
    """How many instructions a C program takes that QEMU runs, and its result."""
    plugin = os.path.join(folder, "count.so")
    if not os.path.exists(plugin):
        subprocess.run(["cc", "-shared", "-fPIC", "-o", plugin, written(folder, "count.c", PLUGIN)], check=True)
    built = compiled(folder, source, level)
    ran = subprocess.run([EMULATOR, "-plugin", plugin, built], stdout=subprocess.PIPE, stderr=subprocess.PIPE, check=True)
    return int(ran.stderr), int.from_bytes(ran.stdout, "little")


def instructions_in_c(folder, source, level):
    """How many instructions the function `run` of a C source takes at a level, and its result."""
    empty, _ = executed(folder, "__attribute__((naked)) unsigned long run(void) { __asm__(\"ret\"); }", level)
    count, result = executed(folder, source, level)
    return count - empty, result


def executed_per_second(folder, source, level, times=500):
    """How many instructions of the function `run` of a C source QEMU executes in a second, where it is called so often."""
    count, _ = instructions_in_c(folder, source, level)
    once, _ = seconds([EMULATOR, compiled(folder, source, level)])
    often, _ = seconds([EMULATOR, compiled(folder, source, level, times)])
    return count * (times - 1) / (often - once)


def seconds(command, runs=5):
    """The least time of some runs of a command, and the most memory that one took, in bytes."""
    best, memory = None, 0
    for _ in range(runs):
        start = time.perf_counter()
        process = subprocess.Popen(command, stdout=subprocess.DEVNULL, stderr=subprocess.DEVNULL)
        _, _, usage = os.wait4(process.pid, 0)
        took = time.perf_counter() - start
        process.returncode = 0
        best = took if best is None else min(best, took)
        memory = max(memory, usage.ru_maxrss * 1024)
    return best, memory
