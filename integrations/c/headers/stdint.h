/* For a compiler that has no headers of its own. */
#ifndef FEW_STDINT_H
#define FEW_STDINT_H
typedef __UINT8_TYPE__ uint8_t;
typedef __UINT32_TYPE__ uint32_t;
typedef __UINT64_TYPE__ uint64_t;
#endif
