/* What the programs that call the library check by. */
#ifndef LIBRARY_CHECK_H
#define LIBRARY_CHECK_H

/* Where something does not hold, returns the number of the line, as an exit status other than 0. */
#define CHECK(holds) \
    do {             \
        if (!(holds)) return __LINE__ % 256 + (__LINE__ % 256 == 0); \
    } while (0)

#endif
