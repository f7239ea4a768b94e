/* Prints the words of two_level.h as an image does. */
#include <stdio.h>
#include "two_level.h"

int main(void) {
    for (int i = 0; i < IMAGE_WORDS; i++)
        printf("word 0x%llx 0x%llx\n", (unsigned long long)image_address[i],
               (unsigned long long)image_word[i]);
    return 0;
}
