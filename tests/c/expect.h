/* Expectations, counted by calls.c, and the parts that it runs. */
#pragma once
#include <stdbool.h>

#include "libc.h"

void expect(bool good, const char *what);

void records(void);
void rehearsals(void);
void texts(void);
void writers(void);
