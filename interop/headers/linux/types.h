/* Stands for a kernel's own types, so that the headers can be compiled as in one. */
#ifndef LINUX_TYPES_H
#define LINUX_TYPES_H

typedef __UINT8_TYPE__ uint8_t;
typedef __UINT16_TYPE__ uint16_t;
typedef __INT32_TYPE__ int32_t;
typedef __UINT32_TYPE__ uint32_t;
typedef __SIZE_TYPE__ size_t;

#endif /* LINUX_TYPES_H */
