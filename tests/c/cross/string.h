#pragma once
#include <stddef.h>
int memcmp(const void *a, const void *b, size_t n);
void *memcpy(void *to, const void *from, size_t n);
void *memset(void *to, int octet, size_t n);
int strcmp(const char *a, const char *b);
size_t strlen(const char *text);
char *strtok(char *text, const char *ends);
