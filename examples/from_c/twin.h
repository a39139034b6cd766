/* The right text, or with -DBROKEN that of the broken twin. */
#ifdef BROKEN
#define TWIN(right, broken) broken
#else
#define TWIN(right, broken) right
#endif
