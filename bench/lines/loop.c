/* The least that a program can do here: it reads its input in pieces of 32 KiB and makes one write of five bytes per line. */
#include <unistd.h>

int main(void) {
    static char piece[32768];
    ssize_t got;
    while ((got = read(0, piece, sizeof piece)) > 0)
        for (ssize_t i = 0; i < got; i++)
            if (piece[i] == '\n' && write(1, "OK 7\n", 5) != 5)
                return 1;
    return got < 0;
}
