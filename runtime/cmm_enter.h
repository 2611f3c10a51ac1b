/* Where cmm_enter.S finds the parts of Cmm_Native: cmm_native.c tests that they are there. */
#define CMM_PC 256
#define CMM_PROGRAM_SIZE 880
#define CMM_OWN_STACK CMM_PROGRAM_SIZE
#define CMM_WAS_STOPPED (CMM_PROGRAM_SIZE + 8)
