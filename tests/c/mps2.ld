/* For the Cortex-M4 of Arm's board MPS2 (AN386), as qemu has it: where the processor finds its stack and its first instruction.
 * All else is as the linker has it anyway. */
__stack = 0x400000;
SECTIONS { .vectors 0 : { LONG(__stack) LONG(_mainCRTStartup | 1) } } INSERT BEFORE .init;
