/* For x86-64, where a compiler comes without C's headers (tools/x86). */
#ifndef X86_STDINT_H
#define X86_STDINT_H
typedef unsigned char uint8_t;
typedef unsigned short uint16_t;
typedef unsigned int uint32_t;
typedef __UINT64_TYPE__ uint64_t;
#endif
