#ifndef STRING_H
#define STRING_H
#include <stddef.h>
void *memcpy(void *into, const void *from, size_t size);
void *memmove(void *into, const void *from, size_t size);
void *memset(void *into, int byte, size_t size);
int memcmp(const void *a, const void *b, size_t size);
void *memchr(const void *bytes, int byte, size_t size);
size_t strlen(const char *text);
char *strstr(const char *text, const char *part);
int strcmp(const char *a, const char *b);
#endif
