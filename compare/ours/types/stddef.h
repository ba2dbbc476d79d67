/* What include/m17.h takes from here, for a compiler that has no headers of its own. */
#ifndef STDDEF_H
#define STDDEF_H
typedef __SIZE_TYPE__ size_t;
#define offsetof(type, field) __builtin_offsetof(type, field)
#endif
