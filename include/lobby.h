/* The lobby for C: what a client knows, folded from the bytes that it was sent, and lines taken apart and made.
 *
 * A view is fed each piece that a client reads from its connection, however the piece is cut, and tables show
 * what the client knows then: users, battles, channels and the room of its own battle. docs/PROTOCOL.md tells
 * the words and fields. One line of the server is read as its fields, and a client's line printed from its own.
 *
 * Each function is proved for every call that keeps these rules. No call checks whether you keep them.
 *   - A view begins as LOBBY_VIEW_EMPTY. lobby_view_new fills an empty view. The other functions take a view
 *     that lobby_view_new filled and lobby_view_free has not emptied since.
 *   - A view is not copied, and `at` is neither read nor written. It stays on the thread that filled it.
 *   - A pointer is never null, also where the length behind it is 0. It points to as many items as that says,
 *     or to one, in memory of the caller's that is no part of a view. Memory that a call writes to is lent by
 *     one of its pointers alone.
 *   - No function is called from a signal handler, or in the forked child of a process with threads.
 *
 * Memory comes from malloc. Where it is refused, the answer is LOBBY_NO_MEMORY, and all is as it was. No
 * function ends the process, keeps a pointer that it is given, or waits.
 *
 * Tables. A call that gives one writes into `size` how many rows and bytes of text it has. If there is room for
 * both, it writes them from the beginning of `rows` and `text`, leaves what is behind as it was, and answers
 * LOBBY_OK. Otherwise it answers LOBBY_NO_ROOM, and nothing but `size` changes: call again with as much room. A
 * text of a row is `length` bytes from `start` in the table's text; no zero byte ends it. */
#ifndef LOBBY_H
#define LOBBY_H

#include <stddef.h>
#include <stdint.h>

#ifdef __cplusplus
extern "C" {
#endif

/* What a call answers. */
enum {
    LOBBY_OK = 0,
    LOBBY_NO_MEMORY = 1,     /* memory was refused, and nothing has changed */
    LOBBY_LINE_TOO_LONG = 2, /* a line has more than 20,479 bytes: the lines before it are folded, and none after */
    LOBBY_NO_ROOM = 3,       /* the table has more rows or text than there is room for: `size` says how much */
    LOBBY_NOT_THERE = 4,     /* there is no such battle, channel of the client or rectangle, or no own room */
    LOBBY_NO_REPLY = 5,      /* no reply of the server prints so */
    LOBBY_NO_COMMAND = 6,    /* the kind is none of a request */
    LOBBY_BAD_FIELDS = 7,    /* no request of the kind has these fields */
    LOBBY_OUT_OF_RANGE = 8,  /* the message id, or a number, is outside its range */
    LOBBY_NOTHING_LISTED = 9,     /* a list has no field */
    LOBBY_WORD_SKIPPED = 10,      /* an optional word is absent before one that is there */
    LOBBY_REQUEST_TOO_LONG = 11   /* the line would have more than 8,192 bytes before its LF */
};

/* What a client knows. */
typedef struct lobby_view {
    void *at;
} lobby_view;

#define LOBBY_VIEW_EMPTY {0}

/* How large a table is. */
typedef struct lobby_size {
    size_t rows;
    size_t text; /* bytes */
} lobby_size;

/* A place in a table's text. A table of names or words has these as its rows. */
typedef struct lobby_text {
    size_t start;
    size_t length;
} lobby_text;

/* A user who is logged in. */
typedef struct lobby_user {
    lobby_text name;
    lobby_text country; /* two letters, or ?? */
    int64_t cpu;        /* what its login said of its processor, -2147483648 to 4294967295 */
    uint32_t account;   /* the number of its account */
    uint32_t status;    /* its status word */
} lobby_user;

/* A battle, as all see it. */
typedef struct lobby_battle {
    lobby_text founder;
    lobby_text ip;
    lobby_text engine_name;
    lobby_text engine_version;
    lobby_text map;
    lobby_text title;
    lobby_text game_name;
    int64_t rank;         /* -2147483648 to 4294967295, as map_hash */
    int64_t map_hash;
    uint32_t number;      /* 1 to 2147483647 */
    uint16_t port;
    uint16_t max_players;
    uint16_t spectators;  /* as the founder says */
    uint8_t battle_type;  /* 0 or 1 */
    uint8_t nat_type;     /* 0 to 2 */
    uint8_t passworded;   /* 0 or 1, as locked */
    uint8_t locked;
    uint16_t unused;      /* 0 */
} lobby_battle;

/* A member of the own room. */
typedef struct lobby_member {
    lobby_text name;
    int64_t colour;  /* -2147483648 to 4294967295; 0 until the server tells it, as status */
    uint32_t status; /* its battle status */
    uint32_t unused; /* 0 */
} lobby_member;

/* A bot of the own room. */
typedef struct lobby_bot {
    lobby_text name;
    lobby_text owner;
    lobby_text ai;
    int64_t colour;  /* -2147483648 to 4294967295 */
    uint32_t status; /* its battle status */
    uint32_t unused; /* 0 */
} lobby_bot;

/* A start rectangle of the own room, in two-hundredths of the map. */
typedef struct lobby_rect {
    uint8_t left;
    uint8_t top;
    uint8_t right;
    uint8_t bottom;
} lobby_rect;

/* A script tag of the own room. */
typedef struct lobby_tag {
    lobby_text key;
    lobby_text value;
} lobby_tag;

/* Fills an empty view with that of a client that was sent nothing. LOBBY_OK; LOBBY_NO_MEMORY, and it stays
 * empty. */
uint32_t lobby_view_new(lobby_view *view);

/* Frees what the view holds, and leaves it empty. */
void lobby_view_free(lobby_view *view);

/* Takes in the next bytes that the client was sent. LOBBY_OK, and `folded` says how many lines were folded:
 * those that no reply of the server prints are skipped. LOBBY_LINE_TOO_LONG, here and from then on.
 * LOBBY_NO_MEMORY: the piece may be fed again. With these two `folded` stays as it was. */
uint32_t lobby_view_feed(lobby_view *view, const uint8_t *bytes, size_t length, size_t *folded);

/* The name under which the client is logged in: a table of one row, whose text is empty before a login.
 * LOBBY_OK, LOBBY_NO_ROOM or LOBBY_NO_MEMORY, as for each table. Those of a battle, a channel or the own room
 * also LOBBY_NOT_THERE, and then nothing changes. */
uint32_t lobby_view_me(lobby_view *view, lobby_text *rows, size_t rows_room, uint8_t *text, size_t text_room,
                       lobby_size *size);

/* The users who are logged in, in the order of the bytes of their names. */
uint32_t lobby_view_users(lobby_view *view, lobby_user *rows, size_t rows_room, uint8_t *text, size_t text_room,
                          lobby_size *size);

/* The battles in the order of their numbers. */
uint32_t lobby_view_battles(lobby_view *view, lobby_battle *rows, size_t rows_room, uint8_t *text, size_t text_room,
                            lobby_size *size);

/* The names of a battle's members in order of joining, the founder first. */
uint32_t lobby_view_battle_members(lobby_view *view, uint32_t battle, lobby_text *rows, size_t rows_room, uint8_t *text,
                                   size_t text_room, lobby_size *size);

/* The names of the channels that the client is in, in the order of their bytes. */
uint32_t lobby_view_channels(lobby_view *view, lobby_text *rows, size_t rows_room, uint8_t *text, size_t text_room,
                             lobby_size *size);

/* The names of a channel's members in order of joining. */
uint32_t lobby_view_channel_members(lobby_view *view, const uint8_t *channel, size_t channel_length, lobby_text *rows,
                                    size_t rows_room, uint8_t *text, size_t text_room, lobby_size *size);

/* The number of the battle that the client is in. LOBBY_OK; LOBBY_NOT_THERE, and `battle` stays as it was. */
uint32_t lobby_view_room(lobby_view *view, uint32_t *battle);

/* The members of the own room in order of joining. */
uint32_t lobby_view_room_members(lobby_view *view, lobby_member *rows, size_t rows_room, uint8_t *text, size_t text_room,
                                 lobby_size *size);

/* The bots of the own room in order of adding. */
uint32_t lobby_view_room_bots(lobby_view *view, lobby_bot *rows, size_t rows_room, uint8_t *text, size_t text_room,
                              lobby_size *size);

/* The start rectangle of an ally number, 0 to 15, in the own room. LOBBY_OK; LOBBY_NOT_THERE where it has none
 * or there is no own room, and `rect` stays as it was. */
uint32_t lobby_view_room_rect(lobby_view *view, uint8_t ally, lobby_rect *rect);

/* The script tags of the own room in order of first setting. */
uint32_t lobby_view_room_tags(lobby_view *view, lobby_tag *rows, size_t rows_room, uint8_t *text, size_t text_room,
                              lobby_size *size);

/* The disabled units of the own room in order of first disabling. */
uint32_t lobby_view_room_units(lobby_view *view, lobby_text *rows, size_t rows_room, uint8_t *text, size_t text_room,
                               lobby_size *size);

/* The word that stands for a password in LOGIN: the base64 text of its MD5. `word_room` is 24. LOBBY_OK;
 * LOBBY_NO_ROOM where it is not, and nothing changes. */
uint32_t lobby_password_word(const uint8_t *password, size_t length, uint8_t *word, size_t word_room);

/* Lines. A line is a head and fields, those of a reply of the server as those of a request of a client. The
 * fields are the arguments in the order of docs/PROTOCOL.md, one for each: words, names, sentences and texts are
 * texts, all others numbers, and an argument that is left out is an absent field. But a list has a field for each
 * of its words or names, and two for each of its pairs, the key and the value. EXIT has no field. LOGIN has six;
 * the last is a number, 1 if who joins a battle of the user asks it first, and 0 if not. */

/* What a field holds. */
enum {
    LOBBY_ABSENT = 0,
    LOBBY_TEXT = 1,
    LOBBY_NUMBER = 2
};

/* A field of a line. */
typedef struct lobby_field {
    lobby_text text; /* of a text its place; else its length is 0 */
    int64_t number;  /* of a number; else 0 */
    uint32_t holds;  /* LOBBY_ABSENT, LOBBY_TEXT or LOBBY_NUMBER */
    uint32_t unused; /* 0 */
} lobby_field;

/* The head of a line. */
typedef struct lobby_head {
    uint32_t kind;     /* LOBBY_REPLY_.. of a reply, LOBBY_ASK_.. of a request */
    uint32_t numbered; /* 1 if the line has a message id, 0 if not */
    uint32_t id;       /* 0 to 2147483647; 0 if there is none */
} lobby_head;

/* The kinds of replies. */
enum {
    /* Written by tools/protocol.py of protocol/replies.toml: kinds of replies. */
    LOBBY_REPLY_TASSERVER = 1,
    LOBBY_REPLY_ACCEPTED = 2,
    LOBBY_REPLY_DENIED = 3,
    LOBBY_REPLY_MOTD = 4,
    LOBBY_REPLY_SERVERMSG = 5,
    LOBBY_REPLY_ADDUSER = 6,
    LOBBY_REPLY_REMOVEUSER = 7,
    LOBBY_REPLY_CLIENTSTATUS = 8,
    LOBBY_REPLY_LOGININFOEND = 9,
    LOBBY_REPLY_PONG = 10,
    LOBBY_REPLY_JOIN = 11,
    LOBBY_REPLY_CLIENTS = 12,
    LOBBY_REPLY_JOINED = 13,
    LOBBY_REPLY_LEFT = 14,
    LOBBY_REPLY_JOINFAILED = 15,
    LOBBY_REPLY_SAID = 16,
    LOBBY_REPLY_SAIDEX = 17,
    LOBBY_REPLY_SAYPRIVATE = 18,
    LOBBY_REPLY_SAIDPRIVATE = 19,
    LOBBY_REPLY_CHANNEL = 20,
    LOBBY_REPLY_ENDOFCHANNELS = 21,
    LOBBY_REPLY_OPENBATTLE = 22,
    LOBBY_REPLY_OPENBATTLEFAILED = 23,
    LOBBY_REPLY_BATTLEOPENED = 24,
    LOBBY_REPLY_BATTLECLOSED = 25,
    LOBBY_REPLY_JOINBATTLE = 26,
    LOBBY_REPLY_JOINBATTLEFAILED = 27,
    LOBBY_REPLY_JOINEDBATTLE = 28,
    LOBBY_REPLY_LEFTBATTLE = 29,
    LOBBY_REPLY_UPDATEBATTLEINFO = 30,
    LOBBY_REPLY_REQUESTBATTLESTATUS = 31,
    LOBBY_REPLY_CLIENTBATTLESTATUS = 32,
    LOBBY_REPLY_SAIDBATTLE = 33,
    LOBBY_REPLY_SAIDBATTLEEX = 34,
    LOBBY_REPLY_ADDBOT = 35,
    LOBBY_REPLY_UPDATEBOT = 36,
    LOBBY_REPLY_REMOVEBOT = 37,
    LOBBY_REPLY_ADDSTARTRECT = 38,
    LOBBY_REPLY_REMOVESTARTRECT = 39,
    LOBBY_REPLY_SETSCRIPTTAGS = 40,
    LOBBY_REPLY_REMOVESCRIPTTAGS = 41,
    LOBBY_REPLY_FORCEQUITBATTLE = 42,
    LOBBY_REPLY_RING = 43,
    LOBBY_REPLY_JOINBATTLEREQUEST = 44,
    LOBBY_REPLY_DISABLEUNITS = 45,
    LOBBY_REPLY_ENABLEUNITS = 46,
    LOBBY_REPLY_ENABLEALLUNITS = 47
    /* End of what is written: kinds of replies. */
};

/* The kinds of requests. */
enum {
    /* Written by tools/protocol.py of protocol/commands.toml: kinds of requests. */
    LOBBY_ASK_PING = 1,
    LOBBY_ASK_EXIT = 2,
    LOBBY_ASK_LOGIN = 3,
    LOBBY_ASK_MYSTATUS = 4,
    LOBBY_ASK_CHANNELS = 5,
    LOBBY_ASK_JOIN = 6,
    LOBBY_ASK_LEAVE = 7,
    LOBBY_ASK_SAY = 8,
    LOBBY_ASK_SAYEX = 9,
    LOBBY_ASK_SAYPRIVATE = 10,
    LOBBY_ASK_OPENBATTLE = 11,
    LOBBY_ASK_JOINBATTLE = 12,
    LOBBY_ASK_JOINBATTLEACCEPT = 13,
    LOBBY_ASK_JOINBATTLEDENY = 14,
    LOBBY_ASK_LEAVEBATTLE = 15,
    LOBBY_ASK_UPDATEBATTLEINFO = 16,
    LOBBY_ASK_MYBATTLESTATUS = 17,
    LOBBY_ASK_SAYBATTLE = 18,
    LOBBY_ASK_SAYBATTLEEX = 19,
    LOBBY_ASK_ADDBOT = 20,
    LOBBY_ASK_UPDATEBOT = 21,
    LOBBY_ASK_REMOVEBOT = 22,
    LOBBY_ASK_ADDSTARTRECT = 23,
    LOBBY_ASK_REMOVESTARTRECT = 24,
    LOBBY_ASK_SETSCRIPTTAGS = 25,
    LOBBY_ASK_REMOVESCRIPTTAGS = 26,
    LOBBY_ASK_DISABLEUNITS = 27,
    LOBBY_ASK_ENABLEUNITS = 28,
    LOBBY_ASK_ENABLEALLUNITS = 29,
    LOBBY_ASK_HANDICAP = 30,
    LOBBY_ASK_FORCETEAMNO = 31,
    LOBBY_ASK_FORCEALLYNO = 32,
    LOBBY_ASK_FORCETEAMCOLOR = 33,
    LOBBY_ASK_FORCESPECTATORMODE = 34,
    LOBBY_ASK_KICKFROMBATTLE = 35,
    LOBBY_ASK_RING = 36
    /* End of what is written: kinds of requests. */
};

/* Reads a line of the server, without its LF, as the reply that prints so: `head`, and a table of its fields.
 * LOBBY_OK, LOBBY_NO_ROOM or LOBBY_NO_MEMORY, as for each table; LOBBY_NO_REPLY, and nothing changes. `head` is
 * written where the table is. */
uint32_t lobby_read_reply(const uint8_t *line, size_t length, lobby_head *head, lobby_field *rows, size_t rows_room,
                          uint8_t *text, size_t text_room, lobby_size *size);

/* Prints the request of this kind, message id and fields as its line with the LF, of at most 8,193 bytes. The
 * texts of the fields are places in `text`; what a field does not hold is not looked at. LOBBY_OK, and the line
 * stands at the beginning of `line`, what is behind as it was; `size` says how long it is. LOBBY_NO_ROOM: nothing
 * but `size` changes, which says how long `line` is to be. Else nothing changes: LOBBY_NO_COMMAND;
 * LOBBY_OUT_OF_RANGE for the id; for the first field from the left that is to blame LOBBY_BAD_FIELDS (too few or
 * too many, a text where a number is to be, one that is not as docs/PROTOCOL.md has it, or outside `text`),
 * LOBBY_OUT_OF_RANGE, LOBBY_NOTHING_LISTED or LOBBY_WORD_SKIPPED; LOBBY_REQUEST_TOO_LONG; LOBBY_NO_MEMORY. */
uint32_t lobby_print_request(const lobby_head *head, const lobby_field *fields, size_t fields_length,
                             const uint8_t *text, size_t text_length, uint8_t *line, size_t line_room, size_t *size);

#ifdef __cplusplus
}
#endif

#endif
