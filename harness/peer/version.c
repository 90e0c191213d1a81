/* Whether the archive is of the version that the header names: prints both, and ends with 1 where they differ. */
#include "hoengtila.h"

#include <stdio.h>

int main(void) {
    printf("the header is of version " HOENGTILA_VERSION_STRING ", %lu, and the library of %lu\n", (unsigned long)HOENGTILA_VERSION, (unsigned long)hoengtila_version());
    return hoengtila_version() != HOENGTILA_VERSION;
}
