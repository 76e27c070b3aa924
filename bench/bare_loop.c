/* The system calls with which `emfstore` makes a store, and nothing else, for bench/replay.

       bare_loop STORE AGAIN

   Of each record of STORE it writes into AGAIN the length and the event with a closed gate after them, syncs, opens the gate, syncs, and prints a
   reply. */
#include <fcntl.h>
#include <stdio.h>
#include <stdlib.h>
#include <sys/mman.h>
#include <sys/stat.h>
#include <unistd.h>

enum { HEADER = 16, OPEN_GATE = 0xA5 };

static void check(int holds)
{
    if (!holds) {
        perror("bare_loop");
        exit(1);
    }
}

static void put(int file, const unsigned char *bytes, size_t size, off_t at)
{
    check(pwrite(file, bytes, size, at) == (ssize_t)size);
    check(fdatasync(file) == 0);
}

int main(int count, char **words)
{
    check(count == 3);
    int from = open(words[1], O_RDONLY), to = open(words[2], O_RDWR | O_CREAT, 0666);
    struct stat about;
    check(from >= 0 && to >= 0 && fstat(from, &about) == 0);
    unsigned char *store = mmap(NULL, about.st_size, PROT_READ | PROT_WRITE, MAP_PRIVATE, from, 0), gate = OPEN_GATE;
    check(store != MAP_FAILED);
    off_t at = HEADER;
    put(to, store, HEADER, 0);
    while (store[at] == OPEN_GATE) {
        size_t size = 5 + ((size_t)store[at + 1] << 24 | store[at + 2] << 16 | store[at + 3] << 8 | store[at + 4]);
        /* The gate after the record is closed where a copy has it open. */
        unsigned char next = store[at + size];
        store[at + size] = 0;
        put(to, store + at + 1, size, at + 1);
        store[at + size] = next;
        put(to, &gate, 1, at);
        check(write(STDOUT_FILENO, "ok\n", 3) == 3);
        at += size;
    }
    return 0;
}
