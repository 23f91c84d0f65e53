/* Stands in one shared object with the proved code, compiled with the fuzzer's counters, and says where that object's counters are. */
#include <stddef.h>
#include <stdint.h>

extern uint8_t __start___sancov_cntrs[], __stop___sancov_cntrs[];

uint8_t *proved_counters(size_t *many)
{
    *many = (size_t)(__stop___sancov_cntrs - __start___sancov_cntrs);
    return __start___sancov_cntrs;
}
