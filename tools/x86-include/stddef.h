/* For x86-64, where a compiler comes without C's headers (tools/x86). */
#ifndef X86_STDDEF_H
#define X86_STDDEF_H
typedef __SIZE_TYPE__ size_t;
#define NULL ((void *)0)
#endif
