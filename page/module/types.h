/* types.h: the types of stddef.h and stdint.h that the module uses. The clang of the toolchain comes without headers. */
typedef __SIZE_TYPE__ size_t;
typedef __UINT64_TYPE__ uint64_t;

#define NULL ((void *)0)
#define SIZE_MAX __SIZE_MAX__
#define UINT32_MAX __UINT32_MAX__
#define UINT64_MAX __UINT64_MAX__
