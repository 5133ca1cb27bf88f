/* The program thompsonf: the commands of the crate `console`, and their status: 0 where all was accepted, 1 where
   something was refused, 2 on a wrong call or where the input or the output failed. */
#include <stddef.h>
#include <stdint.h>
#include <string.h>

/* How many arguments there are, the program's name among them, and the bytes of those from 1 to 4: no command looks at
   others. None of the pointers is null. */
uint8_t thompsonf_status(size_t count, const uint8_t *first, size_t first_size, const uint8_t *second,
                         size_t second_size, const uint8_t *third, size_t third_size, const uint8_t *fourth,
                         size_t fourth_size);

static const uint8_t *bytes(const char *argument) { return (const uint8_t *)argument; }

int main(int argc, char **argv) {
    const char *arguments[5] = {"", "", "", "", ""};
    for (int i = 1; i < argc && i < 5; i++) arguments[i] = argv[i];
    return thompsonf_status((size_t)argc, bytes(arguments[1]), strlen(arguments[1]), bytes(arguments[2]),
                            strlen(arguments[2]), bytes(arguments[3]), strlen(arguments[3]), bytes(arguments[4]),
                            strlen(arguments[4]));
}
