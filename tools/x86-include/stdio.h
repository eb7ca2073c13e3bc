/* For x86-64, where a compiler comes without C's headers (tools/x86): what the examples use. */
#ifndef X86_STDIO_H
#define X86_STDIO_H
int printf(const char *format, ...);
int putchar(int c);
#endif
