// Marks a listing from C: reads it from standard input, and prints what the library writes. Built and run by docs/linking/run.
#include <stdint.h>
#include <stdio.h>

// A slice of the library's is a pointer to its first element and its length.
size_t region_machine_mark(const uint8_t *listing, size_t length, uint8_t *output, size_t room);

static uint8_t listing[65537], output[163840];

int main(void) {
    size_t length = fread(listing, 1, sizeof listing, stdin);
    size_t used = region_machine_mark(listing, length, output, sizeof output);
    return fwrite(output, 1, used, stdout) == used && fflush(stdout) == 0 ? 0 : 1;
}
