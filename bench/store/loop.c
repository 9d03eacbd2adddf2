/* The least that a program can do here: it reads a script in pieces of 32 KiB, makes one write for each reply, and of each commit the writes and
   syncs of one append to the journal of the store that it is given: the header behind a gate, the body, a closed gate; sync; the gate; sync. A body
   has 12 octets, and 24 for each change. */
#include <fcntl.h>
#include <string.h>
#include <unistd.h>

enum { START = 262144, HEADER = 12, FIXED = 12, CHANGE = 24, MOST = 256, LONGEST = 65536 };

static int store;
static off_t gate = START;

static int append(size_t changes) {
    static unsigned char header[HEADER], body[FIXED + MOST * CHANGE];
    ssize_t length = FIXED + changes * CHANGE;
    off_t at = gate + 1 + HEADER;
    header[7] = 1, header[10] = length >> 8, header[11] = length;
    if (pwrite(store, header, HEADER, gate + 1) != HEADER || pwrite(store, body, length, at) != length ||
        pwrite(store, "\0", 1, at + length) != 1 || fdatasync(store) != 0 || pwrite(store, "\245", 1, gate) != 1 || fdatasync(store) != 0)
        return 0;
    gate = at + length;
    return 1;
}

static int is(const char *line, const char *word) {
    return strncmp(line, word, strlen(word)) == 0;
}

/* The reply to a line; of a commit when its changes are in the journal. */
static int serve(const char *line) {
    static size_t changes;
    const char *reply = "OK\n";
    if (is(line, "create "))
        reply = "OK i1 000000010000000000000001\n";
    if (is(line, "create ") || is(line, "set "))
        changes++;
    else if (is(line, "flush ") || is(line, "commit ")) {
        if (changes > 0 && !append(changes))
            return 0;
        changes = 0;
    }
    return write(1, reply, strlen(reply)) == (ssize_t)strlen(reply);
}

int main(int count, char **words) {
    static char piece[32768], line[LONGEST];
    size_t length = 0;
    ssize_t got;
    if (count != 2 || (store = open(words[1], O_RDWR)) < 0)
        return 6;
    while ((got = read(0, piece, sizeof piece)) > 0)
        for (ssize_t i = 0; i < got; i++)
            if (piece[i] != '\n') {
                if (length < LONGEST - 1)
                    line[length++] = piece[i];
            } else {
                line[length] = 0, length = 0;
                if (!serve(line))
                    return 6;
            }
    return got < 0;
}
