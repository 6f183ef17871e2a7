#pragma once
#include <stddef.h>
long strtol(const char *text, char **end, int base);
