/* What the server needs of the C library's header: the kit's compiler comes without one. */
#ifndef STAND_IN_STDDEF_H
#define STAND_IN_STDDEF_H
typedef __SIZE_TYPE__ size_t;
#endif
