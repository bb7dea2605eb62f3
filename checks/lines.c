/* Takes replies apart and prints requests, over the C library. `lines read` reads lines of the server from its input and writes for
 * each its kind, its message id or `-`, and its fields: `-` one that is absent, `:` and the bytes a text, a number as it is, each
 * behind a LF, and an empty line behind the last; or `status` and the number. `lines print` reads the same form, and writes lines.
 * Lent memory is as large as is asked for, and what lies behind it must stay as it was. */
#include "lobby.h"

#include <inttypes.h>
#include <stdio.h>
#include <stdlib.h>
#include <string.h>

#define BEHIND 64
#define FILLER 0xa5
#define MOST 40000

static _Noreturn void fail(const char *why) {
    fprintf(stderr, "lines: %s\n", why);
    exit(2);
}

static void *block(size_t bytes) {
    uint8_t *made = malloc(bytes + BEHIND);
    if (made == NULL) fail("no memory");
    memset(made, FILLER, bytes + BEHIND);
    return made;
}

/* Whether nothing but the first bytes of a block was written. */
static void look_behind(const void *lent, size_t bytes) {
    for (size_t i = 0; i < BEHIND; i++)
        if (((const uint8_t *)lent)[bytes + i] != FILLER) fail("a call writes past its room");
}

static void tell(const lobby_head *head, const lobby_field *fields, size_t count, const uint8_t *text) {
    printf("%" PRIu32, head->kind);
    if (head->numbered) printf(" %" PRIu32 "\n", head->id);
    else puts(" -");
    for (const lobby_field *field = fields; field < fields + count; field++) {
        if (field->holds == LOBBY_NUMBER) {
            printf("%" PRId64 "\n", field->number);
        } else if (field->holds == LOBBY_TEXT) {
            putchar(':');
            fwrite(text + field->text.start, 1, field->text.length, stdout);
            putchar('\n');
        } else {
            puts(field->holds == LOBBY_ABSENT ? "-" : "?");
        }
        if (field->unused != 0 || (field->holds != LOBBY_TEXT && field->text.length != 0)) fail("a field holds too much");
        if (field->holds != LOBBY_NUMBER && field->number != 0) fail("a field that holds no number has one");
    }
    putchar('\n');
}

static void read_line(const uint8_t *line, size_t length) {
    lobby_head head = {77, 77, 77};
    lobby_size size = {77, 77};
    lobby_field *fields = block(0);
    uint8_t *text = block(0);
    uint32_t status = lobby_read_reply(line, length, &head, fields, 0, text, 0, &size);
    if (status == LOBBY_NO_ROOM) {
        if (head.kind != 77 || head.numbered != 77 || head.id != 77) fail("a head is written without its table");
        look_behind(fields, 0);
        look_behind(text, 0);
        free(fields);
        free(text);
        lobby_size room = size;
        fields = block(room.rows * sizeof *fields);
        text = block(room.text);
        status = lobby_read_reply(line, length, &head, fields, room.rows, text, room.text, &size);
        if (status != LOBBY_OK || size.rows != room.rows || size.text != room.text) fail("a table does not fit into what it asks for");
    } else if (status != LOBBY_OK && (size.rows != 77 || size.text != 77 || head.kind != 77)) {
        fail("a line that is none changes something");
    }
    if (status == LOBBY_OK) {
        look_behind(fields, size.rows * sizeof *fields);
        look_behind(text, size.text);
        tell(&head, fields, size.rows, text);
    } else {
        printf("status %" PRIu32 "\n\n", status);
    }
    free(fields);
    free(text);
}

static void print_line(const lobby_head *head, const lobby_field *fields, size_t count, const uint8_t *text, size_t text_length) {
    size_t size = 77;
    uint8_t *line = block(0);
    uint32_t status = lobby_print_request(head, fields, count, text, text_length, line, 0, &size);
    look_behind(line, 0);
    if (status == LOBBY_NO_ROOM) {
        size_t room = size;
        free(line);
        line = block(room - 1);
        status = lobby_print_request(head, fields, count, text, text_length, line, room - 1, &size);
        look_behind(line, room - 1);
        if (status != LOBBY_NO_ROOM || size != room || line[0] != FILLER) fail("a line is given without room for it");
        free(line);
        line = block(room);
        status = lobby_print_request(head, fields, count, text, text_length, line, room, &size);
        look_behind(line, room);
        if (status != LOBBY_OK || size != room) fail("a line does not fit into what it asks for");
        fwrite(line, 1, size, stdout);
    } else {
        if (size != 77) fail("a refusal changes something");
        printf("status %" PRIu32 "\n", status);
    }
    free(line);
}

/* One request of the input: its head, and a field a line up to an empty one. Places are counted from a gap in the text on. */
static int read_request(char *line, size_t room) {
    if (fgets(line, (int)room, stdin) == NULL) return 0;
    lobby_head head = {0, 0, 0};
    head.numbered = sscanf(line, "%" SCNu32 " %" SCNu32, &head.kind, &head.id) == 2;
    lobby_field fields[64];
    uint8_t *text = block(MOST);
    size_t count = 0, end = 3;
    while (fgets(line, (int)room, stdin) != NULL && line[0] != '\n') {
        size_t length = strlen(line) - 1;
        if (count == 64 || end + length > MOST) fail("the request is too long");
        lobby_field *field = &fields[count++];
        *field = (lobby_field){{77, 777777}, 77, 77, 77};
        if (line[0] == ':') {
            field->holds = LOBBY_TEXT;
            field->text = (lobby_text){end, length - 1};
            memcpy(text + end, line + 1, length - 1);
            end += length - 1;
        } else if (line[0] == '>') {
            field->holds = LOBBY_TEXT;
            if (sscanf(line + 1, "%zu %zu", &field->text.start, &field->text.length) != 2) fail("a place is none");
        } else if (line[0] == '-' && line[1] == '\n') {
            field->holds = LOBBY_ABSENT;
        } else if (line[0] != '?') {
            field->holds = LOBBY_NUMBER;
            field->number = strtoll(line, NULL, 10);
        }
    }
    print_line(&head, fields, count, text, end);
    free(text);
    return 1;
}

int main(int count, char **words) {
    if (count != 2) fail("usage: lines read|print");
    char *line = malloc(MOST);
    if (line == NULL) fail("no memory");
    if (strcmp(words[1], "read") == 0) {
        while (fgets(line, MOST, stdin) != NULL) {
            size_t length = strlen(line) - 1;
            uint8_t *lent = malloc(length + 1);
            if (lent == NULL) fail("no memory");
            memcpy(lent, line, length);
            read_line(lent, length);
            free(lent);
        }
    } else {
        while (read_request(line, MOST)) {}
    }
    free(line);
    return 0;
}
