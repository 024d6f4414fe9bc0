#include "sentence.h"

#include <stdarg.h>
#include <stdio.h>

Sentence say(const char *format, ...) {
    Sentence sentence;
    va_list arguments;
    va_start(arguments, format);
    vsnprintf(sentence.text, sizeof sentence.text, format, arguments);
    va_end(arguments);
    return sentence;
}
