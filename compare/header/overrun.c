/* Writes beside the memory that it was given. By it header/run sees whether ASan starts here and finds that. */
#include <stdlib.h>

int main(int count, char **words)
{
    volatile char *byte = (char *)malloc(1);
    (void)words;
    byte[count] = 1;
    return byte[count];
}
