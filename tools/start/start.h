/* Where everything lies in memory at run time, and what an ECALL asks for: docs/ABI.md. */
#define CODE_BASE 0x10000
#define DATA_BASE 0x40000000
#define REGION_BASE 0x60000000
#define BELOW_STACK 0x1000
#define STACK_SIZE 0x100000

#define PUT_BYTE 1
#define GET_BYTE 2
#define YIELD 3
#define STACK_LIMIT 4
#define END 5
