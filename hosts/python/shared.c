/* The header's words, which are inline there, for a shared library. */
#include "rondavitse.h"

const char *rondavitse_shared_words(uint32_t no);

const char *rondavitse_shared_words(uint32_t no) {
    return rondavitse_words(no);
}
