#include "text.h"

#include "messages.h"

void begin_text(Text *text) {
    text->stream = open_memstream(&text->at, &text->length);
    if (text->stream == NULL)
        fail("out of memory");
}

Bytes end_text(Text *text) {
    bool whole = !ferror(text->stream);
    if (fclose(text->stream) != 0 || !whole)
        fail("out of memory");
    return (Bytes){(uint8_t *)text->at, text->length};
}
