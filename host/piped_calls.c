/*
 * Makes the archive's calls for a program that can't link it: reads calls from standard input until it ends, and writes to standard output
 * what each returned and what became of the memory that it was lent.
 *
 * A call is a letter (c, s, j, d or v for code, serve, join, decode or survey; g, i or o for grey_size, grey_in or grey_out), its numbers, and
 * each of its stretches of memory as length in bytes and contents, in the order of afshtruni.h. Its answer is the returned number and the contents of
 * the stretches, in the same order. A number between them has 64 bits, lowest byte first, and contents are as they stand in the memory of an
 * x86-64.
 *
 * It fails where the input ends inside of a call, or where a call has written next to the memory that it was lent.
 */
#include "afshtruni.h"

#include <stdbool.h>
#include <stdio.h>
#include <stdlib.h>
#include <string.h>

enum { GUARD = 64, DIRT = 0xA5 };

/* Memory with a guard on both sides. */
typedef struct {
    uint8_t *memory;
    void *at;
    size_t size;
} Lent;

static void fail(const char *why) {
    fprintf(stderr, "piped_calls: %s\n", why);
    exit(EXIT_FAILURE);
}

static void take(void *to, size_t size) {
    if (fread(to, 1, size, stdin) != size)
        fail("the input ends inside of a call");
}

static void give(const void *from, size_t size) {
    if (fwrite(from, 1, size, stdout) != size)
        fail("the answer can't be written");
}

static uint64_t take_number(void) {
    uint64_t number;
    take(&number, sizeof number);
    return number;
}

static void give_number(uint64_t number) {
    give(&number, sizeof number);
}

static Lent take_memory(void) {
    size_t size = take_number();
    uint8_t *memory = malloc(size + 2 * GUARD);
    if (memory == NULL)
        fail("no memory");
    memset(memory, DIRT, GUARD);
    take(memory + GUARD, size);
    memset(memory + GUARD + size, DIRT, GUARD);
    return (Lent){memory, memory + GUARD, size};
}

static bool is_dirt(const uint8_t *guard) {
    for (size_t i = 0; i < GUARD; i++)
        if (guard[i] != DIRT)
            return false;
    return true;
}

static void give_memory(Lent lent) {
    if (!is_dirt(lent.memory) || !is_dirt(lent.memory + GUARD + lent.size))
        fail("written next to the memory that was lent");
    give(lent.at, lent.size);
    free(lent.memory);
}

static void code(void) {
    uint64_t width = take_number(), height = take_number(), decompositions = take_number();
    Lent pyramid = take_memory(), out = take_memory(), work = take_memory(), answer = take_memory();
    give_number(afs_code(pyramid.at, pyramid.size / sizeof(int32_t), width, height, decompositions, out.at, out.size, work.at,
                         work.size / sizeof(uint32_t), answer.at, answer.size / sizeof(uint64_t)));
    give_memory(pyramid);
    give_memory(out);
    give_memory(work);
    give_memory(answer);
}

static void serve(void) {
    uint64_t level = take_number(), plane = take_number();
    Lent record = take_memory(), out = take_memory(), answer = take_memory();
    give_number(afs_serve(record.at, record.size, level, plane, out.at, out.size, answer.at, answer.size / sizeof(uint64_t)));
    give_memory(record);
    give_memory(out);
    give_memory(answer);
}

static void join(void) {
    Lent first = take_memory(), second = take_memory(), out = take_memory(), answer = take_memory();
    give_number(afs_join(first.at, first.size, second.at, second.size, out.at, out.size, answer.at, answer.size / sizeof(uint64_t)));
    give_memory(first);
    give_memory(second);
    give_memory(out);
    give_memory(answer);
}

static void decode(void) {
    Lent record = take_memory(), out = take_memory(), work = take_memory(), answer = take_memory();
    give_number(afs_decode(record.at, record.size, out.at, out.size / sizeof(int32_t), work.at, work.size / sizeof(uint32_t), answer.at,
                           answer.size / sizeof(uint64_t)));
    give_memory(record);
    give_memory(out);
    give_memory(work);
    give_memory(answer);
}

static void survey(void) {
    Lent record = take_memory(), answer = take_memory();
    give_number(afs_survey(record.at, record.size, answer.at, answer.size / sizeof(uint64_t)));
    give_memory(record);
    give_memory(answer);
}

static void grey_size(void) {
    Lent file = take_memory(), answer = take_memory();
    give_number(afs_grey_size(file.at, file.size, answer.at, answer.size / sizeof(uint64_t)));
    give_memory(file);
    give_memory(answer);
}

static void grey_in(void) {
    uint64_t decompositions = take_number();
    Lent file = take_memory(), out = take_memory(), work = take_memory(), answer = take_memory();
    give_number(afs_grey_in(file.at, file.size, decompositions, out.at, out.size / sizeof(int32_t), work.at, work.size / sizeof(uint32_t),
                            answer.at, answer.size / sizeof(uint64_t)));
    give_memory(file);
    give_memory(out);
    give_memory(work);
    give_memory(answer);
}

static void grey_out(void) {
    uint64_t width = take_number(), height = take_number(), decompositions = take_number();
    Lent pyramid = take_memory(), out = take_memory(), work = take_memory(), answer = take_memory();
    give_number(afs_grey_out(pyramid.at, pyramid.size / sizeof(int32_t), width, height, decompositions, out.at, out.size, work.at,
                             work.size / sizeof(uint32_t), answer.at, answer.size / sizeof(uint64_t)));
    give_memory(pyramid);
    give_memory(out);
    give_memory(work);
    give_memory(answer);
}

int main(void) {
    for (int call; (call = getchar()) != EOF;) {
        switch (call) {
        case 'c':
            code();
            break;
        case 's':
            serve();
            break;
        case 'j':
            join();
            break;
        case 'd':
            decode();
            break;
        case 'v':
            survey();
            break;
        case 'g':
            grey_size();
            break;
        case 'i':
            grey_in();
            break;
        case 'o':
            grey_out();
            break;
        default:
            fail("no such call");
        }
        if (fflush(stdout) != 0)
            fail("the answer can't be written");
    }
    return EXIT_SUCCESS;
}
