#pragma once
typedef struct _IO_FILE FILE;
extern FILE *stdin;
char *fgets(char *to, int n, FILE *from);
int printf(const char *format, ...);
