/* Prints the battles of a lobby server and who is in them: connects, logs in, and feeds a view until the
 * login's lines are over.
 *
 *     make library
 *     cc -I include examples/battles.c bin/liblobby.a -o battles
 *     ./battles 127.0.0.1 8200 Anna password
 *
 * Its exit status is 0, or 1 where it could not connect or was not logged in, or memory was refused. */
#include "lobby.h"

#include <netdb.h>
#include <stdio.h>
#include <stdlib.h>
#include <string.h>
#include <sys/socket.h>
#include <unistd.h>

/* A table of the library in memory that grows as it is asked to. */
struct table {
    void *rows;
    uint8_t *text;
    size_t rows_room, text_room;
    lobby_size size;
};

#define TABLE_EMPTY {0}

static _Noreturn void fail(const char *why) {
    fprintf(stderr, "battles: %s\n", why);
    exit(1);
}

/* Makes room for what `size` asks for. */
static void grow(struct table *t, size_t row) {
    t->rows = realloc(t->rows, (t->size.rows + 1) * row);
    t->text = realloc(t->text, t->size.text + 1);
    if (t->rows == NULL || t->text == NULL) fail("no memory");
    t->rows_room = t->size.rows;
    t->text_room = t->size.text;
}

/* Fills a table by a call that names it; the value is the number of its rows. */
#define FILL(t, row, call)                                               \
    do {                                                                 \
        (t)->size = (lobby_size){0, 0};                                  \
        grow((t), sizeof(row));                                          \
        uint32_t status = (call);                                        \
        if (status == LOBBY_NO_ROOM) {                                   \
            grow((t), sizeof(row));                                      \
            status = (call);                                             \
        }                                                                \
        if (status == LOBBY_NO_MEMORY) fail("no memory");                \
        if (status != LOBBY_OK) (t)->size = (lobby_size){0, 0};          \
    } while (0)

static void print_text(const char *before, const struct table *t, lobby_text text) {
    printf("%s%.*s", before, (int)text.length, (const char *)t->text + text.start);
}

static void print_battles(lobby_view *view) {
    struct table battles = TABLE_EMPTY, members = TABLE_EMPTY;
    FILL(&battles, lobby_battle,
         lobby_view_battles(view, battles.rows, battles.rows_room, battles.text, battles.text_room, &battles.size));
    const lobby_battle *battle = battles.rows;
    for (size_t i = 0; i < battles.size.rows; i++, battle++) {
        FILL(&members, lobby_text,
             lobby_view_battle_members(view, battle->number, members.rows, members.rows_room, members.text,
                                       members.text_room, &members.size));
        printf("%u", (unsigned)battle->number);
        print_text(" ", &battles, battle->title);
        print_text(", ", &battles, battle->map);
        printf(", %zu of %u%s%s:", members.size.rows, (unsigned)battle->max_players, battle->passworded ? ", passworded" : "",
               battle->locked ? ", locked" : "");
        for (size_t k = 0; k < members.size.rows; k++) print_text(" ", &members, ((const lobby_text *)members.rows)[k]);
        puts("");
    }
    free(battles.rows);
    free(battles.text);
    free(members.rows);
    free(members.text);
}

static int connected(const char *host, const char *port) {
    struct addrinfo wanted = {.ai_socktype = SOCK_STREAM}, *found;
    if (getaddrinfo(host, port, &wanted, &found) != 0) fail("no such address");
    int at = socket(found->ai_family, found->ai_socktype, found->ai_protocol);
    if (at < 0 || connect(at, found->ai_addr, found->ai_addrlen) != 0) fail("cannot connect");
    freeaddrinfo(found);
    return at;
}

static void send_line(int at, const uint8_t *line, size_t length) {
    for (size_t sent = 0; sent < length;) {
        ssize_t more = write(at, line + sent, length - sent);
        if (more <= 0) fail("cannot send");
        sent += (size_t)more;
    }
}

/* Prints LOGIN from its fields, whose texts stand one behind the other. */
static void log_in(int at, const char *name, const char *password) {
    uint8_t text[256], line[8193];
    size_t end = strlen(name), length = 0;
    if (end > 200) fail("the name is too long");
    memcpy(text, name, end);
    if (lobby_password_word((const uint8_t *)password, strlen(password), text + end, 24) != LOBBY_OK) fail("no word");
    memcpy(text + end + 24, "*battles", 8);
    const lobby_head head = {LOBBY_ASK_LOGIN, 0, 0};
    const lobby_field fields[] = {
        {{0, end}, 0, LOBBY_TEXT, 0},      {{end, 24}, 0, LOBBY_TEXT, 0},     {{0, 0}, 0, LOBBY_NUMBER, 0},
        {{end + 24, 1}, 0, LOBBY_TEXT, 0}, {{end + 25, 7}, 0, LOBBY_TEXT, 0}, {{0, 0}, 0, LOBBY_NUMBER, 0},
    };
    uint32_t status = lobby_print_request(&head, fields, 6, text, end + 32, line, sizeof line, &length);
    if (status != LOBBY_OK) fail(status == LOBBY_NO_MEMORY ? "no memory" : "the name is no word");
    send_line(at, line, length);
}

/* The kind of a line, or 0. None that this program looks for has more fields than there is room for. */
static uint32_t kind_of(const uint8_t *line, size_t length) {
    static lobby_field fields[64];
    static uint8_t text[20480];
    lobby_head head;
    lobby_size size;
    uint32_t status = lobby_read_reply(line, length, &head, fields, 64, text, sizeof text, &size);
    if (status == LOBBY_NO_MEMORY) fail("no memory");
    return status == LOBBY_OK ? head.kind : 0;
}

/* Whether the login's last line ends in these bytes. What stands behind the last LF is kept for the next call. */
static int is_logged_in(const uint8_t *bytes, size_t length) {
    static uint8_t line[20480];
    static size_t count;
    int is_over = 0;
    for (size_t i = 0; i < length; i++) {
        if (bytes[i] == '\n') {
            uint32_t kind = kind_of(line, count);
            count = 0;
            if (kind == LOBBY_REPLY_DENIED) fail("the login was denied");
            if (kind == LOBBY_REPLY_LOGININFOEND) is_over = 1;
        } else if (count < sizeof line) {
            line[count++] = bytes[i];
        }
    }
    return is_over;
}

int main(int count, char **words) {
    if (count != 5) fail("usage: battles HOST PORT NAME PASSWORD");
    int at = connected(words[1], words[2]);
    log_in(at, words[3], words[4]);
    lobby_view view = LOBBY_VIEW_EMPTY;
    if (lobby_view_new(&view) != LOBBY_OK) fail("no memory");
    uint8_t piece[4096];
    size_t folded = 0;
    for (int is_over = 0; !is_over;) {
        ssize_t length = read(at, piece, sizeof piece);
        if (length <= 0) fail("the server ended the connection");
        if (lobby_view_feed(&view, piece, (size_t)length, &folded) != LOBBY_OK) fail("no memory, or a line is too long");
        is_over = is_logged_in(piece, (size_t)length);
    }
    print_battles(&view);
    lobby_view_free(&view);
    close(at);
    return 0;
}
