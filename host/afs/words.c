#include "words.h"

#include "messages.h"

#include <string.h>

/* Its argument is what is attached to it, or the next word. */
static void meet_option(Option option, const char *typed, int length, const char *attached, char ***next, Words *words) {
    const char *argument = options[option].argument == NULL ? NULL : attached != NULL ? attached : **next;
    if (options[option].argument != NULL && argument == NULL)
        misused("%.*s needs %s", length, typed, options[option].argument);
    if (argument != NULL && attached == NULL)
        (*next)++;
    words->given[option] = true;
    words->as_word[option] = typed[1] == '-';
    words->arguments[option] = argument;
}

static void meet_word(const char *word, char ***next, Words *words) {
    size_t length = strcspn(word, "=");
    const char *attached = word[length] == '=' ? word + length + 1 : NULL;
    for (Option option = 0; option < OPTIONS; option++)
        if (strlen(options[option].word) == length - 2 && strncmp(options[option].word, word + 2, length - 2) == 0 &&
            (attached == NULL || options[option].argument != NULL)) {
            meet_option(option, word, (int)length, attached, next, words);
            return;
        }
    misused("no option %s", word);
}

/* How many bytes the character at the front of a text has, with all that goes on as in UTF-8. */
static int length_typed(const char *text) {
    int length = 1;
    while (((unsigned char)text[length] & 0xC0) == 0x80)
        length++;
    return length;
}

/* One letter after another, until one takes the rest as its argument. */
static void meet_letters(const char *letters, char ***next, Words *words) {
    for (; *letters != '\0'; letters++) {
        Option option = 0;
        while (option < OPTIONS && options[option].letter != *letters)
            option++;
        if (option == OPTIONS)
            misused("no option -%.*s", length_typed(letters), letters);
        const char typed[] = {'-', *letters, '\0'};
        meet_option(option, typed, 2, letters[1] == '\0' ? NULL : letters + 1, next, words);
        if (options[option].argument != NULL)
            return;
    }
}

/* '-1' is a number that isn't legal rather than an option. */
static bool is_operand(const char *word) {
    return word[0] != '-' || word[1] == '\0' || (word[1] >= '0' && word[1] <= '9');
}

/* Options stand anywhere, whatever POSIXLY_CORRECT says: operands are never taken for them. */
Words words_of(char **argv) {
    Words words = {.operands = argv};
    bool after_dashes = false;
    for (char **next = argv + (argv[0] != NULL); *next != NULL;) {
        char *word = *next++;
        if (!after_dashes && strcmp(word, "--") == 0)
            after_dashes = true;
        else if (after_dashes || is_operand(word))
            words.operands[words.count++] = word;
        else if (word[1] == '-')
            meet_word(word, &next, &words);
        else
            meet_letters(word + 1, &next, &words);
        if (!after_dashes)
            words.before_dashes = words.count;
    }
    return words;
}

Sentence as_typed(const Words *words, Option option) {
    return words->as_word[option] ? say("--%s", options[option].word) : say("-%c", options[option].letter);
}
