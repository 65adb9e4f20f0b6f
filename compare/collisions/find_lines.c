/* Finds lines that collide: the hashes of the default build hasher, whose seed is fixed, are the
 * same modulo 65,536, so each of the lines is in one bucket of a set of up to 65,536.
 *
 *     cc -O2 -o find_lines find_lines.c && ./find_lines > lines.txt
 *
 * It writes 16,384 lines of eight small letters, the first ones in the order of the alphabet. With
 * an argument they collide as keys of the type String, and else as lists of bytes. */
#include <stdint.h>
#include <stdio.h>
#include <string.h>

enum { LENGTH = 8, LINES = 16384, BUCKETS = 65536 };

static const uint64_t SEED = 0x243f6a8885a308d3, MULTIPLIER = 0x9e3779b97f4a7c15;

static char line[LENGTH + 1];
static int found, are_texts;

/* Returns the state of std::hash::FoldHasher after a write of `length` bytes, which `word` has. */
static uint64_t fold(uint64_t state, uint64_t word, uint64_t length)
{
    unsigned __int128 product = (unsigned __int128)(state ^ word) * (MULTIPLIER ^ 2 * length);
    return (uint64_t)product ^ (uint64_t)(product >> 64);
}

/* Returns the state after a write of one byte, which is read as the first, the middle and the last
 * one of the write. */
static uint64_t fold_byte(uint64_t state, unsigned char byte)
{
    return fold(state, (uint64_t)byte * 0x10101, 1);
}

/* Returns the hash of the line as a text: its bytes in one write, and a byte that ends it. */
static uint64_t hash_of_text(void)
{
    uint64_t word;
    memcpy(&word, line, LENGTH);
    return fold_byte(fold(SEED, word, LENGTH), 255);
}

/* Tries each letter in the place `at` behind those that have this state. Each byte of a list is
 * written alone. */
static void try_letters(int at, uint64_t state)
{
    if (at == LENGTH) {
        if ((are_texts ? hash_of_text() : state) % BUCKETS == 0) {
            puts(line);
            found++;
        }
        return;
    }
    for (char letter = 'a'; letter <= 'z' && found < LINES; letter++) {
        line[at] = letter;
        try_letters(at + 1, fold_byte(state, letter));
    }
}

int main(int words, char **arguments)
{
    (void)arguments;
    are_texts = words > 1;
    /* The length of a list comes first, as a write of eight bytes. */
    try_letters(0, fold(SEED, LENGTH, 8));
    return found < LINES || fflush(stdout) != 0;
}
