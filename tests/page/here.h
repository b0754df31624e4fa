/* Before page/module/ when it is compiled for this machine: the names of WebAssembly, of the C library and of compiler-rt lead to
 * tests/page/support.c, or have names of their own. */
#define __heap_base module_heap
#define __builtin_wasm_memory_size module_size
#define __builtin_wasm_memory_grow module_grow
#define memcmp module_memcmp
#define bcmp module_bcmp
#define __multi3 module_multi3
#define __ashlti3 module_ashlti3
#define __lshrti3 module_lshrti3

__UINT64_TYPE__ module_size(int memory);
__UINT64_TYPE__ module_grow(int memory, __UINT64_TYPE__ more);
