/* Does what view_show does, over the C library: reads the bytes that a client was sent, and shows what it knows
 * behind the last of them. Its argument is how many bytes are folded at once at most, or `whole`. Each table is
 * asked for twice: without room, and with just as much as it takes. What lies behind that must stay as it was. */
#include "lobby.h"

#include <inttypes.h>
#include <stdio.h>
#include <stdlib.h>
#include <string.h>

struct table {
    void *rows;
    uint8_t *text;
    lobby_size size;
    int is_there;
};

static _Noreturn void fail(const char *why) {
    fprintf(stderr, "view: %s\n", why);
    exit(2);
}

/* What lies behind lent memory. */
#define BEHIND 64
#define FILLER 0xa5

static void *block(size_t bytes) {
    uint8_t *made = malloc(bytes + BEHIND);
    if (made == NULL) fail("no memory");
    memset(made, FILLER, bytes + BEHIND);
    return made;
}

/* Looks at what lies behind so many bytes. */
static void look_behind(const void *lent, size_t bytes) {
    for (size_t i = 0; i < BEHIND; i++)
        if (((const uint8_t *)lent)[bytes + i] != FILLER) fail("a table writes past its room");
}

/* Fills a table by a call over `rows`, `rows_room`, `text`, `text_room` and `&size`. */
#define FILL(t, row, call)                                                                    \
    do {                                                                                      \
        void *rows = block(0);                                                                \
        uint8_t *text = block(0);                                                             \
        size_t rows_room = 0, text_room = 0;                                                  \
        lobby_size size = {77, 77};                                                           \
        uint32_t status = (call);                                                             \
        if (status == LOBBY_NO_ROOM) {                                                        \
            look_behind(rows, 0);                                                             \
            look_behind(text, 0);                                                             \
            free(rows);                                                                       \
            free(text);                                                                       \
            rows_room = size.rows;                                                            \
            text_room = size.text;                                                            \
            rows = block(rows_room * sizeof(row));                                            \
            text = block(text_room);                                                          \
            status = (call);                                                                  \
            if (status != LOBBY_OK || size.rows != rows_room || size.text != text_room)       \
                fail("a table does not fit into what it asks for");                           \
        }                                                                                     \
        int is_kept = size.rows == 77 && size.text == 77;                                     \
        if (status == LOBBY_NOT_THERE ? !is_kept : status != LOBBY_OK) fail("a table is refused"); \
        look_behind(rows, rows_room * sizeof(row));                                           \
        look_behind(text, text_room);                                                         \
        (t)->rows = rows;                                                                     \
        (t)->text = text;                                                                     \
        (t)->size = status == LOBBY_OK ? size : (lobby_size){0, 0};                           \
        (t)->is_there = status == LOBBY_OK;                                                   \
    } while (0)

static void empty(struct table *t) {
    free(t->rows);
    free(t->text);
}

static void put(const char *before, const struct table *t, lobby_text at) {
    if (at.start > t->size.text || at.length > t->size.text - at.start) fail("a text is not in its table");
    fputs(before, stdout);
    fwrite(t->text + at.start, 1, at.length, stdout);
}

/* A line for each text of a table of them. */
static void put_texts(const char *before, const struct table *t) {
    for (size_t i = 0; i < t->size.rows; i++) {
        put(before, t, ((lobby_text *)t->rows)[i]);
        putchar('\n');
    }
}

static void show_users(lobby_view *view) {
    struct table t;
    FILL(&t, lobby_user, lobby_view_users(view, rows, rows_room, text, text_room, &size));
    for (size_t i = 0; i < t.size.rows; i++) {
        lobby_user u = ((lobby_user *)t.rows)[i];
        put("user ", &t, u.name);
        put(" ", &t, u.country);
        printf(" %" PRId64 " %" PRIu32 " %" PRIu32 "\n", u.cpu, u.account, u.status);
    }
    empty(&t);
}

static void show_battle(const struct table *t, lobby_battle b) {
    printf("battle %" PRIu32 " %u %u", b.number, b.battle_type, b.nat_type);
    put(" ", t, b.founder);
    put(" ", t, b.ip);
    printf(" %u %u %" PRId64 " %" PRId64 " %u", b.port, b.max_players, b.rank, b.map_hash, b.spectators);
    printf("%s%s", b.passworded ? " passworded" : "", b.locked ? " locked" : "");
    put("\n  title ", t, b.title);
    put("\n  map ", t, b.map);
    put("\n  game ", t, b.game_name);
    put("\n  engine ", t, b.engine_name);
    put("\n  version ", t, b.engine_version);
    putchar('\n');
}

static void show_battles(lobby_view *view) {
    struct table t, members;
    FILL(&t, lobby_battle, lobby_view_battles(view, rows, rows_room, text, text_room, &size));
    for (size_t i = 0; i < t.size.rows; i++) {
        lobby_battle b = ((lobby_battle *)t.rows)[i];
        show_battle(&t, b);
        FILL(&members, lobby_text, lobby_view_battle_members(view, b.number, rows, rows_room, text, text_room, &size));
        if (!members.is_there) fail("a battle has no members");
        put_texts("  member ", &members);
        empty(&members);
    }
    empty(&t);
    FILL(&members, lobby_text, lobby_view_battle_members(view, 0, rows, rows_room, text, text_room, &size));
    if (members.is_there) fail("there is a battle 0");
    empty(&members);
}

static void show_channels(lobby_view *view) {
    struct table t, members;
    FILL(&t, lobby_text, lobby_view_channels(view, rows, rows_room, text, text_room, &size));
    for (size_t i = 0; i < t.size.rows; i++) {
        lobby_text name = ((lobby_text *)t.rows)[i];
        put("channel ", &t, name);
        putchar('\n');
        const uint8_t *bytes = t.text + name.start;
        FILL(&members, lobby_text,
             lobby_view_channel_members(view, bytes, name.length, rows, rows_room, text, text_room, &size));
        if (!members.is_there) fail("a channel has no members");
        put_texts("  member ", &members);
        empty(&members);
    }
    empty(&t);
    for (const char *name = "not a name"; name != NULL; name = strlen(name) == 0 ? NULL : "") {
        FILL(&members, lobby_text,
             lobby_view_channel_members(view, (const uint8_t *)name, strlen(name), rows, rows_room, text, text_room, &size));
        if (members.is_there) fail("there is a channel without a name");
        empty(&members);
    }
}

static void show_members(lobby_view *view) {
    struct table t;
    FILL(&t, lobby_member, lobby_view_room_members(view, rows, rows_room, text, text_room, &size));
    for (size_t i = 0; i < t.size.rows; i++) {
        lobby_member m = ((lobby_member *)t.rows)[i];
        put("  member ", &t, m.name);
        printf(" %" PRIu32 " %" PRId64 "\n", m.status, m.colour);
    }
    empty(&t);
}

static void show_bots(lobby_view *view) {
    struct table t;
    FILL(&t, lobby_bot, lobby_view_room_bots(view, rows, rows_room, text, text_room, &size));
    for (size_t i = 0; i < t.size.rows; i++) {
        lobby_bot b = ((lobby_bot *)t.rows)[i];
        put("  bot ", &t, b.name);
        put(" ", &t, b.owner);
        printf(" %" PRIu32 " %" PRId64, b.status, b.colour);
        put(" ", &t, b.ai);
        putchar('\n');
    }
    empty(&t);
}

static void show_rectangles(lobby_view *view) {
    for (unsigned ally = 0; ally < 256; ally++) {
        lobby_rect r = {7, 7, 7, 7};
        uint32_t status = lobby_view_room_rect(view, (uint8_t)ally, &r);
        if (status == LOBBY_OK) {
            printf("  rectangle %u %u %u %u %u\n", ally, r.left, r.top, r.right, r.bottom);
        } else if (status != LOBBY_NOT_THERE || r.left != 7 || r.top != 7 || r.right != 7 || r.bottom != 7) {
            fail("a rectangle that is not there is written");
        }
    }
}

static void show_tags(lobby_view *view) {
    struct table t;
    FILL(&t, lobby_tag, lobby_view_room_tags(view, rows, rows_room, text, text_room, &size));
    for (size_t i = 0; i < t.size.rows; i++) {
        lobby_tag tag = ((lobby_tag *)t.rows)[i];
        put("  tag ", &t, tag.key);
        put("=", &t, tag.value);
        putchar('\n');
    }
    empty(&t);
}

static void show_room(lobby_view *view) {
    struct table t;
    uint32_t battle = 77;
    if (lobby_view_room(view, &battle) == LOBBY_OK) {
        printf("room %" PRIu32 "\n", battle);
    } else if (battle != 77) {
        fail("the number of no battle is written");
    }
    show_members(view);
    show_bots(view);
    show_rectangles(view);
    show_tags(view);
    FILL(&t, lobby_text, lobby_view_room_units(view, rows, rows_room, text, text_room, &size));
    put_texts("  unit ", &t);
    empty(&t);
}

static void show(lobby_view *view) {
    struct table t;
    FILL(&t, lobby_text, lobby_view_me(view, rows, rows_room, text, text_room, &size));
    if (t.size.rows != 1) fail("there are other than one of oneself");
    put_texts("me ", &t);
    empty(&t);
    show_users(view);
    show_battles(view);
    show_channels(view);
    show_room(view);
}

int main(int count, char **words) {
    static uint8_t bytes[1 << 26];
    size_t length = fread(bytes, 1, sizeof bytes, stdin), most = 4096, folded = 0;
    if (count > 1) most = strcmp(words[1], "whole") == 0 ? sizeof bytes : strtoul(words[1], NULL, 10);
    if (most == 0 || !feof(stdin)) fail("usage: view [whole|BYTES] < RECEIVED");
    lobby_view view = LOBBY_VIEW_EMPTY;
    if (lobby_view_new(&view) != LOBBY_OK) fail("no memory");
    for (size_t at = 0; at < length;) {
        size_t piece = length - at < most ? length - at : most;
        uint8_t *lent = block(piece);
        memcpy(lent, bytes + at, piece);
        uint32_t status = lobby_view_feed(&view, lent, piece, &folded);
        free(lent);
        if (status == LOBBY_LINE_TOO_LONG) break;
        if (status != LOBBY_OK) fail("a piece is refused");
        at += piece;
    }
    show(&view);
    lobby_view_free(&view);
    return 0;
}
