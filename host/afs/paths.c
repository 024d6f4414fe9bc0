#include "paths.h"

#include "files.h"

#include <stdlib.h>
#include <string.h>
#include <unistd.h>

/* The component that ends at `end`, which is then the end of the one before it. Its length is 0 where there is none. */
static size_t take_last(const char *path, size_t *end, const char **at) {
    size_t begin = *end;
    while (begin > 0 && path[begin - 1] != '/')
        begin--;
    size_t length = *end - begin;
    *at = path + begin;
    *end = begin > 0 ? begin - 1 : 0;
    return length;
}

static bool is_word(const char *at, size_t length, const char *word) {
    return length == strlen(word) && memcmp(at, word, length) == 0;
}

/* '..' takes the component before it away; at the root there is none, and before a relative path nobody knows it. */
static size_t add_component(char *plain, size_t length, const char *at, size_t of_it) {
    size_t before = length;
    const char *last;
    size_t of_last = take_last(plain, &before, &last);
    if (of_it == 0 || is_word(at, of_it, ".") || (is_word(at, of_it, "..") && of_last == 0 && plain[0] == '/'))
        return length;
    if (is_word(at, of_it, "..") && of_last > 0 && !is_word(last, of_last, ".."))
        return last - plain > 1 ? before : (size_t)(last - plain);
    if (of_last > 0)
        plain[length++] = '/';
    memcpy(plain + length, at, of_it);
    return length + of_it;
}

char *plain_path(const char *path) {
    char *plain = memory_for(strlen(path) + 1, 1);
    size_t length = 0;
    plain[0] = '\0';
    if (path[0] == '/')
        plain[length++] = '/';
    for (const char *at = path; *at != '\0';) {
        size_t of_it = strcspn(at, "/");
        length = add_component(plain, length, at, of_it);
        at += of_it + (at[of_it] == '/');
    }
    plain[length] = '\0';
    return plain;
}

char *full_path(const char *path) {
    char *folder = path[0] == '/' ? NULL : getcwd(NULL, 0);
    if (folder == NULL)
        return plain_path(path);
    size_t of_folder = strlen(folder);
    char *whole = memory_for(of_folder + 1 + strlen(path) + 1, 1);
    strcpy(whole, folder);
    whole[of_folder] = '/';
    strcpy(whole + of_folder + 1, path);
    char *full = plain_path(whole);
    free(folder);
    free(whole);
    return full;
}

/* Walks from the end while components are the same. How many are; below 0, 0 or above for what stands before them. */
static size_t walk_from_end(const char *one, const char *other, int *order) {
    size_t end_of_one = strlen(one), end_of_other = strlen(other), same = 0;
    for (;; same++) {
        const char *at, *beside;
        size_t length = take_last(one, &end_of_one, &at), of_other = take_last(other, &end_of_other, &beside);
        *order = memcmp(at, beside, length < of_other ? length : of_other);
        if (*order == 0)
            *order = (length > of_other) - (length < of_other);
        if (*order != 0 || length == 0)
            return same;
    }
}

int compare_from_end(const char *one, const char *other) {
    int order;
    walk_from_end(one, other, &order);
    return order;
}

size_t same_at_end(const char *one, const char *other) {
    int order;
    return walk_from_end(one, other, &order);
}

size_t count_components(const char *path) {
    return same_at_end(path, path);
}
