/* What samples/c and the tests use of it, as the kit's C library has it. */
#pragma once
extern _Noreturn void exit(int);
