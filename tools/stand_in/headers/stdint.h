/* What the server needs of the C library's header: the kit's compiler comes without one. */
#ifndef STAND_IN_STDINT_H
#define STAND_IN_STDINT_H
typedef __UINT8_TYPE__ uint8_t;
typedef __UINT32_TYPE__ uint32_t;
#define UINT32_C(number) number##U
#endif
