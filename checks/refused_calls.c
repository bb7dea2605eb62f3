/* Refuses memory to each call of the C library, allocation by allocation: each time the answer is LOBBY_NO_MEMORY, lent memory is as it
 * was, and the view shows what it showed. Runs with checks/refuse_allocation.c preloaded, and tells how many refusals each call had. */
#include "lobby.h"

#include <stdio.h>
#include <stdlib.h>
#include <string.h>

#define FILLER 0xa5
#define ROWS 64
#define TEXT 8192

static _Noreturn void fail(const char *what, size_t number) {
    fprintf(stderr, "refused_calls: %s, allocation %zu\n", what, number);
    exit(2);
}

/* By way of a pointer, so that no compiler leaves such a call out. */
static void *(*volatile ask)(size_t) = malloc;

static void refuse_from(size_t number) {
    if (ask(((size_t)1 << 60) + number) != NULL) fail("nothing is preloaded that refuses", number);
}

/* Whether one was refused. From here on none is. */
static int was_refused(void) {
    void *granted = ask((size_t)1 << 59);
    free(granted);
    return granted != NULL;
}

/* All that a call may write to. */
static struct lent {
    union {
        lobby_user users[ROWS];
        lobby_battle battles[ROWS];
        lobby_member members[ROWS];
        lobby_bot bots[ROWS];
        lobby_tag tags[ROWS];
        lobby_text texts[ROWS];
        lobby_field fields[ROWS];
    } rows;
    uint8_t text[TEXT];
    lobby_size size;
    lobby_head head;
    lobby_rect rect;
    size_t count;
    uint32_t number;
} lent, before;

static lobby_view view = LOBBY_VIEW_EMPTY;
static const char *piece;

#define TABLE(name, kind, call)                                                                            \
    static uint32_t name(void) { return call(&view, lent.rows.kind, ROWS, lent.text, TEXT, &lent.size); }
TABLE(me, texts, lobby_view_me)
TABLE(users, users, lobby_view_users)
TABLE(battles, battles, lobby_view_battles)
TABLE(channels, texts, lobby_view_channels)
TABLE(room_members, members, lobby_view_room_members)
TABLE(room_bots, bots, lobby_view_room_bots)
TABLE(room_tags, tags, lobby_view_room_tags)
TABLE(room_units, texts, lobby_view_room_units)

static uint32_t battle_members(void) {
    return lobby_view_battle_members(&view, 1, lent.rows.texts, ROWS, lent.text, TEXT, &lent.size);
}

static uint32_t channel_members(void) {
    return lobby_view_channel_members(&view, (const uint8_t *)"main", 4, lent.rows.texts, ROWS, lent.text, TEXT, &lent.size);
}

static uint32_t room(void) { return lobby_view_room(&view, &lent.number); }

static uint32_t room_rect(void) { return lobby_view_room_rect(&view, 1, &lent.rect); }

static uint32_t new_view(void) { return lobby_view_new(&view); }

static uint32_t feed(void) { return lobby_view_feed(&view, (const uint8_t *)piece, strlen(piece), &lent.count); }

static uint32_t password(void) { return lobby_password_word((const uint8_t *)"password", 8, lent.text, 24); }

static uint32_t read_reply(void) {
    return lobby_read_reply((const uint8_t *)piece, strlen(piece), &lent.head, lent.rows.fields, ROWS, lent.text, TEXT, &lent.size);
}

static uint32_t print_request(void) {
    static const lobby_head head = {LOBBY_ASK_SETSCRIPTTAGS, 1, 7};
    static const lobby_field fields[2] = {{{0, 6}, 0, LOBBY_TEXT, 0}, {{6, 1}, 0, LOBBY_TEXT, 0}};
    return lobby_print_request(&head, fields, 2, (const uint8_t *)"game/a1", 7, lent.text, TEXT, &lent.count);
}

/* All that the view shows, one table behind the other. */
struct shown {
    struct lent tables[12];
    uint32_t statuses[12];
};

static uint32_t (*const looks[12])(void) = {me,       users,        battles,   channels,  room_members, room_bots,
                                            room_tags, room_units, battle_members, channel_members, room,      room_rect};

static struct shown *show(void) {
    struct shown *shown = malloc(sizeof *shown);
    if (shown == NULL) fail("no memory", 0);
    for (size_t i = 0; i < 12; i++) {
        memset(&lent, FILLER, sizeof lent);
        shown->statuses[i] = looks[i]();
        memcpy(&shown->tables[i], &lent, sizeof lent);
    }
    return shown;
}

static void look_same(const char *what, size_t number, const struct shown *was) {
    struct shown *now = show();
    if (memcmp(now->tables, was->tables, sizeof now->tables) || memcmp(now->statuses, was->statuses, sizeof now->statuses))
        fail(what, number);
    free(now);
}

/* Refuses each allocation of a call in turn, until it has as many as it asks for. `has_view`: whether a view is there before it. */
static size_t refuse(const char *what, uint32_t (*call)(void), uint32_t wanted, int has_view) {
    struct shown *was = has_view ? show() : NULL;
    lobby_view empty = LOBBY_VIEW_EMPTY;
    for (size_t number = 1;; number++) {
        memset(&lent, FILLER, sizeof lent);
        memset(&before, FILLER, sizeof before);
        refuse_from(number);
        uint32_t status = call();
        if (!was_refused()) {
            if (status != wanted) fail(what, number);
            free(was);
            printf("%s %zu\n", what, number - 1);
            return number - 1;
        }
        if (status != LOBBY_NO_MEMORY || memcmp(&lent, &before, sizeof lent)) fail(what, number);
        if (has_view) look_same(what, number, was);
        else if (memcmp(&view, &empty, sizeof view)) fail(what, number);
    }
}

static const char *const PIECES[] = {
    "TASSERVER 0.38 * 8201 0\nACCEPTED Anna\nADDUSER Anna DE 0 1\nADDUSER Bert ?? -1 4294967295\nCLIENTSTATUS Bert 12\n",
    "LOGININFOEND\nJOIN main\nCLIENTS main Anna Bert\nBATTLEOPENED 1 0 2 Bert 10.0.0.2 8452 16 0 -7 9 Recoil\t105.1\tDelta Siege\tOpen",
    " to all\tBalanced 1.2\nJOINBATTLE 1 7\nJOINEDBATTLE 1 Anna\nCLIENTBATTLESTATUS Anna 1024 255\nADDBOT 1 Bot1 Bert 0 77 Some AI\n"
    "ADDSTARTRECT 1 0 10 100 200\nSETSCRIPTTAGS game/a=1\tgame/b=\nDISABLEUNITS armcom corcom\n",
    "LEFT main Bert\nUPDATEBATTLEINFO 1 3 1 9 Delta Siege\nREMOVEBOT 1 Bot1\nENABLEALLUNITS\nREMOVEUSER Bert\nno reply\n",
};

int main(void) {
    size_t refused = refuse("new", new_view, LOBBY_OK, 0);
    for (size_t i = 0; i < sizeof PIECES / sizeof *PIECES; i++) {
        piece = PIECES[i];
        if (i == 3) {
            for (size_t k = 0; k < 10; k++) refused += refuse("table", looks[k], LOBBY_OK, 1);
            refused += refuse("room", room, LOBBY_OK, 1) + refuse("rectangle", room_rect, LOBBY_OK, 1);
        }
        refused += refuse("feed", feed, LOBBY_OK, 1);
    }
    piece = "#7 BATTLEOPENED 1 0 2 Bert 10.0.0.2 8452 16 0 -7 9 Recoil\t105.1\tDelta Siege\tOpen to all\tBalanced 1.2";
    refused += refuse("read", read_reply, LOBBY_OK, 1);
    piece = "SETSCRIPTTAGS game/a=1\tno pair";
    refused += refuse("read none", read_reply, LOBBY_NO_REPLY, 1);
    refused += refuse("print", print_request, LOBBY_OK, 1) + refuse("password", password, LOBBY_OK, 1);
    lobby_view_free(&view);
    printf("%zu refused\n", refused);
    return 0;
}
