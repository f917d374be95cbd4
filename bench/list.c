/* The listing program in C with stdio: one file on standard input, its listing on standard output. */
#define PEER static inline
#include "peer_file.c"

int main(void)
{
    static uint8_t file[LONGEST_FILE + 1];
    size_t length = fread(file, 1, sizeof file, stdin);
    list(stdout, file, length);
    return 0;
}
