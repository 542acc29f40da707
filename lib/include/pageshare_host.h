/*
 * The host of VMM processes that share memory, in C11 or C++11: the functions of libpageshare_host.a.
 *
 * A host has machines with frames, and sessions. Each VMM process that is connected is a client with a session. What it sends is
 * bytes: a packet of its SOCK_SEQPACKET connection is one message. pageshare_host_receive takes the packet and makes the packet to
 * reply with. It moves no byte itself: sockets, descriptors and processes are the caller's.
 *
 *     struct pageshare_host host = PAGESHARE_HOST_NONE;
 *     struct pageshare_host_shape shape = {.machines = 4, .slots = 1000000, .frames = 500000, ..};
 *     if (pageshare_host_make(&host, &shape, region, region_bytes) != PAGESHARE_HOST_OK) ..
 *     pageshare_host_connect(&host, name, &connection);                               a peer has connected
 *     struct pageshare_host_received got = pageshare_host_receive(&host, connection, packet, length, ..);
 *     ..
 *     pageshare_host_disconnect(&host, connection);                                   the connection has ended
 *     do pageshare_host_end(&host, connection, freed, 128, &count); while (count);    the peer's process has ended
 *
 * No call has a condition on its numbers or on a packet's bytes: a wrong one is answered by a status above 0. Only a packet that
 * is at fault changes something then: its session takes no more messages. docs/FORMATS.md has the format of messages.
 *
 * What the caller owes, and nothing checks:
 *
 * - A handle begins as PAGESHARE_HOST_NONE or as zeros, and these calls alone read and write its members. It isn't copied. One call
 *   at a time works on it.
 * - Each pointer is not null, even if its count is 0, and is aligned for its type. It points to as many elements as are named
 *   beside it, for as long as the call runs. What a call writes to overlaps no other argument of it. Nobody writes meanwhile to what
 *   it reads: a client can write to a buffer that it shares with the host, so copy the pages out of it first.
 * - A count of elements makes less than 2^63 bytes.
 * - The region is the library's until the host is freed: nobody else writes to it. But the memory of free frames may be given back
 *   to the system, also while a call runs, unless it is pageshare_host_receive or pageshare_host_serve with a LEND. Only a lend takes
 *   a frame that is free. The other calls touch no frames but those that slots have.
 * - pageshare_host_take_back is called before the LOANS is sent of which it takes loans back: its client has heard of none.
 * - A name is drawn at random for each connection, and given to nobody else.
 * - pageshare_host_end is called only when nothing shows the session's frames any more: its process has ended, and no other process
 *   has its mappings.
 */
#ifndef PAGESHARE_HOST_H
#define PAGESHARE_HOST_H

#include <stdbool.h>
#include <stddef.h>
#include <stdint.h>

#ifdef __cplusplus
extern "C" {
#endif

/*
 * Messages. All numbers are little endian, and a packet holds one message and nothing else. These structs are a packet's bytes on a
 * machine that is little endian; a packet ends after the last of `count` elements.
 */

#define PAGESHARE_HOST_VERSION 2
#define PAGESHARE_HOST_NAME_BYTES 16
#define PAGESHARE_HOST_MAX_PAGES 128      /* the most pages (or slots) in one message */
#define PAGESHARE_HOST_MAX_MESSAGE 2056   /* the bytes of the longest message, of either side */
#define PAGESHARE_HOST_NO_FRAME UINT32_MAX
#define PAGESHARE_HOST_PASSING (UINT64_C(1) << 63) /* added to a question's page: the host answers it, and notes nothing */

enum pageshare_host_kind {
    /* from a client */
    PAGESHARE_HOST_HELLO = 1,    /* the first message, once. Reply: WELCOME */
    PAGESHARE_HOST_ASK = 2,      /* whether other pages have these fingerprints. Reply: SEEN */
    PAGESHARE_HOST_LEND = 3,     /* lends the first `count` pages of the buffer. Reply: LOANS */
    PAGESHARE_HOST_RELEASE = 4,  /* releases slots; one that isn't the client's stays as it is. No reply */
    /* from the host */
    PAGESHARE_HOST_WELCOME = 17,
    PAGESHARE_HOST_SEEN = 18,
    PAGESHARE_HOST_LOANS = 19
};

/*
 * 8 bytes for a new session. 32 bytes to take up the session with this name. If there is none, or it can't be taken up, a new session
 * begins: WELCOME says which by its name. `loans` is how many LOANS the client has got in the session that it takes up. If
 * the host sent another number, it releases the slots of its last LOANS: the client can't know of them. So a client sends a LEND only
 * when it has got the reply to the one before.
 */
struct pageshare_host_hello {
    uint32_t kind, version;
    uint8_t name[PAGESHARE_HOST_NAME_BYTES];
    uint64_t loans;
};

/*
 * `page` is a number below 2^63 of the client's choice for each of its pages, so that a page that asks again doesn't see itself. With
 * PAGESHARE_HOST_PASSING added, the question is answered as any other, and counts for nobody's question.
 */
struct pageshare_host_question {
    uint64_t page, fingerprint;
};

struct pageshare_host_ask {
    uint32_t kind, count;
    struct pageshare_host_question questions[PAGESHARE_HOST_MAX_PAGES];
};

struct pageshare_host_lend {
    uint32_t kind, count;
};

struct pageshare_host_release {
    uint32_t kind, count;
    uint64_t slots[PAGESHARE_HOST_MAX_PAGES];
};

struct pageshare_host_welcome {
    uint32_t kind, version;
    uint8_t name[PAGESHARE_HOST_NAME_BYTES]; /* the session's */
    uint32_t frames;                         /* in the file of frames */
    uint32_t salt;                           /* of fingerprints */
    uint32_t most;                           /* pages in one message */
    uint32_t client_cpu;                     /* the percentage of one processor that the client may use, or 0: nothing is said */
};

/*
 * seen[i] is 1 if another page was asked about with the fingerprint of questions[i], within the last questions, or if a frame in
 * use has it; and else 0. The questions of a client whose process has ended don't count.
 */
struct pageshare_host_seen {
    uint32_t kind, count;
    uint8_t seen[PAGESHARE_HOST_MAX_PAGES];
};

struct pageshare_host_lent {
    uint64_t slot;    /* the page's slot; 0 if it isn't lent */
    uint32_t frame;   /* the frame that holds the page's bytes; PAGESHARE_HOST_NO_FRAME if it isn't lent */
    uint32_t sharers; /* how many slots have the frame, with this one; 0 if it isn't lent */
};

struct pageshare_host_loans {
    uint32_t kind, count;
    struct pageshare_host_lent loans[PAGESHARE_HOST_MAX_PAGES];
};

/* What a call returns. Numbers that libpageshare has too mean the same there. Below they are written without PAGESHARE_HOST_ERROR. */
enum pageshare_host_status {
    PAGESHARE_HOST_OK = 0,
    PAGESHARE_HOST_ERROR_FRAMES = 1,    /* fewer than 2 frames for each machine, or too many */
    PAGESHARE_HOST_ERROR_MEMORY = 4,    /* memory was refused */
    PAGESHARE_HOST_ERROR_IN_USE = 5,    /* the handle holds a host already */
    PAGESHARE_HOST_ERROR_NO_HOST = 6,   /* the handle holds no host, or one that isn't made yet */
    PAGESHARE_HOST_ERROR_REGION = 13,   /* the region is for another number of frames, or isn't aligned to 4,096 */
    PAGESHARE_HOST_ERROR_MACHINES = 16, /* no machine, or too many */
    PAGESHARE_HOST_ERROR_SLOTS = 17,    /* no slots, or too many for each machine */
    PAGESHARE_HOST_ERROR_SESSIONS = 18, /* no session, or too many */
    PAGESHARE_HOST_ERROR_RECENT = 19,   /* no question, or too many */
    PAGESHARE_HOST_ERROR_NO_ROOM = 20,  /* connect: there are as many sessions as there may be */
    PAGESHARE_HOST_ERROR_NO_SESSION = 32, /* no session with this number takes messages (disconnect, end, session: there is none) */
    PAGESHARE_HOST_ERROR_SHORT = 33,      /* receive: the reply needs PAGESHARE_HOST_MAX_MESSAGE bytes, freed 128 numbers */
    /* Faults of a packet, in the order in which they are looked for. The session takes no more messages; its slots stay. */
    PAGESHARE_HOST_FAULT_HEAD = 64,     /* fewer than 8 bytes */
    PAGESHARE_HOST_FAULT_KIND = 65,     /* a client sends no message of this kind */
    PAGESHARE_HOST_FAULT_VERSION = 66,  /* HELLO: another version */
    PAGESHARE_HOST_FAULT_COUNT = 67,    /* more than 128 pages or slots */
    PAGESHARE_HOST_FAULT_LENGTH = 68,   /* another number of bytes than the kind and the count say */
    PAGESHARE_HOST_FAULT_EARLY = 69,    /* the first message isn't HELLO */
    PAGESHARE_HOST_FAULT_AGAIN = 70,    /* HELLO in a session that has begun */
    PAGESHARE_HOST_FAULT_PAGES = 71,    /* LEND of more pages than the buffer has */
    PAGESHARE_HOST_FAULT_CLIENTS = 72   /* HELLO: no client can enter */
};

/* A handle: it can contain one host. Its members are the library's. */
struct pageshare_host {
    void *private_at;
    bool private_live;
};

/* What a handle begins as: it holds no host. */
#define PAGESHARE_HOST_NONE {NULL, false}

/*
 * What a host is made of. All memory is taken when it is made; no other call asks for any. The limits are those of
 * `struct pageshare_domain_config` in pageshare.h; sessions are a domain's clients.
 */
struct pageshare_host_shape {
    uint32_t machines; /* equal pages meet, since a page's hash says which machine it goes to */
    uint32_t slots;    /* the pages that may be lent at a time, of each machine */
    uint32_t frames;   /* of each machine, at least 2. One of them is spare: it is in use only within a call */
    uint32_t sessions; /* the most sessions at a time */
    uint32_t recent;   /* how many questions are remembered */
    uint32_t quota;    /* the most slots of one session */
    uint32_t salt;     /* of the pages' hash. Drawn at random, and kept secret from clients */
    uint32_t fingerprints; /* the salt of fingerprints, which clients get: another one */
    uint64_t seed;     /* drawn at random and kept secret: with it one can make questions take long */
    uint32_t client_cpu; /* the percentage of one processor that clients are to use at most; 0: they decide */
    uint32_t reserved;   /* isn't read */
};

/* Memory of the caller's for the frames of one machine: `pages` pages of 4,096 bytes from `at` on. */
struct pageshare_host_region {
    void *at;
    size_t pages;
};

/*
 * Begins a host. Returns PAGESHARE_HOST_OK, or the first cause that holds in this order: _IN_USE, _MACHINES, _SLOTS, _FRAMES,
 * _SESSIONS, _RECENT, _MEMORY. Each other call but pageshare_host_add and pageshare_host_free returns _NO_HOST until it is made.
 * Pages are found by the fast hash (PAGESHARE_FOLD).
 */
uint32_t pageshare_host_begin(struct pageshare_host *host, const struct pageshare_host_shape *shape);

/*
 * Gives a host that was begun the frames of its next machine. With those of the last machine the host is made. Returns
 * PAGESHARE_HOST_OK, _NO_HOST (no host was begun, or it is made), _REGION (it is for another number of frames) or _MEMORY.
 * At _MEMORY the handle holds nothing, and the library doesn't touch the regions again.
 */
uint32_t pageshare_host_add(struct pageshare_host *host, struct pageshare_host_region region);

/* Frees a host, even if clients are connected, or one that was begun. Returns PAGESHARE_HOST_OK or _NO_HOST; the handle holds none
 * afterwards. */
uint32_t pageshare_host_free(struct pageshare_host *host);

/*
 * Makes a host over a region of machines * frames pages, aligned to 4,096 bytes. Frame n is the 4,096 bytes at 4096 n of it, whatever
 * machine has it. Returns what pageshare_host_begin and pageshare_host_add do, and unless that is PAGESHARE_HOST_OK the
 * handle holds nothing.
 */
static inline uint32_t pageshare_host_make(struct pageshare_host *host, const struct pageshare_host_shape *shape, void *region,
                                           size_t region_bytes) {
    struct pageshare_host_region part;
    uint32_t machine, status = pageshare_host_begin(host, shape);
    if (status != PAGESHARE_HOST_OK) return status;
    if ((uintptr_t)region % 4096 != 0 || region_bytes / 4096 < (uint64_t)shape->machines * shape->frames)
        status = PAGESHARE_HOST_ERROR_REGION;
    for (machine = 0; status == PAGESHARE_HOST_OK && machine < shape->machines; machine++) {
        part.at = (uint8_t *)region + (size_t)machine * shape->frames * 4096;
        part.pages = shape->frames;
        status = pageshare_host_add(host, part);
    }
    if (status != PAGESHARE_HOST_OK) pageshare_host_free(host);
    return status;
}

/*
 * A peer has connected: its session gets a number and has said nothing yet. `name` is drawn at random for it. Returns
 * PAGESHARE_HOST_OK, _NO_HOST or _NO_ROOM.
 */
uint32_t pageshare_host_connect(struct pageshare_host *host, const uint8_t name[PAGESHARE_HOST_NAME_BYTES], uint32_t *session);

struct pageshare_host_received {
    uint32_t status;      /* an enum pageshare_host_status. Unless it is 0, reply and freed stay as they are */
    uint32_t reply_bytes; /* the bytes of the reply, or 0: there is none */
    uint32_t freed;       /* how many numbers are in `freed` */
    uint32_t resumed;     /* the number of the session that HELLO took up, which is free now; PAGESHARE_HOST_NO_FRAME: none */
};

/*
 * Receives one packet of a session: `length` bytes, as many as there are. `pages` are the pages of its buffer, copied out of it; only
 * LEND reads them, so page_count may be 0 for a packet of another kind. The reply goes to `reply`, of at least
 * PAGESHARE_HOST_MAX_MESSAGE bytes. After RELEASE freed[i] is the frame that slot i's release freed, or PAGESHARE_HOST_NO_FRAME. After
 * a HELLO that took up a session the same holds of the slots of its last LOANS, if the client didn't get that. Give space for 128
 * numbers. What it does changes no slot of another session, whatever the bytes are. The status is PAGESHARE_HOST_OK, or the first
 * cause that holds in this order: _NO_HOST, _SHORT, _NO_SESSION, a fault. At the first three nothing has changed.
 */
struct pageshare_host_received pageshare_host_receive(struct pageshare_host *host, uint32_t session, const uint8_t *bytes,
                                                      size_t length, const uint8_t (*pages)[4096], size_t page_count,
                                                      uint8_t *reply, size_t reply_room, uint32_t *freed, size_t freed_room);

/* What a packet says, before a session receives it. */
struct pageshare_host_packet {
    uint32_t kind;  /* an enum pageshare_host_kind, or 0: it is no message of a client */
    uint32_t count; /* how many questions, pages or slots it lists */
};

/* Reads a packet of `length` bytes, so that a caller can prepare what it needs: for a LEND, pages of the buffer. */
struct pageshare_host_packet pageshare_host_read(const uint8_t *bytes, size_t length);

/* What a packet may do, by what the caller knows of memory and processes. */
struct pageshare_host_allowance {
    uint32_t most;   /* how many pages of a LEND may be lent now: the first ones */
    uint32_t beside; /* the number of the other session of the same process, or PAGESHARE_HOST_NO_FRAME: it has no other */
};

struct pageshare_host_served {
    uint32_t status;      /* these four as in struct pageshare_host_received */
    uint32_t reply_bytes;
    uint32_t freed;
    uint32_t resumed;
    uint32_t kind;    /* the reply's: PAGESHARE_HOST_WELCOME, _SEEN or _LOANS, or 0: there is none */
    uint32_t answers; /* how many questions SEEN answers, or 0 */
    uint32_t loans;   /* how many pages LOANS is of, or 0 */
};

/*
 * Receives one packet as pageshare_host_receive does, but within what `may` allows, and returns what the reply says, too. A LEND needs
 * no more pages than may->most; of each page after those LOANS says that it isn't lent, and nothing else comes of it. A process with two
 * sessions gets no more slots for both than the quota of one. HELLO takes up no session but `beside`, if that has the name; its connection
 * may stand still, and the caller ends it then. (pageshare_host_receive knows of no processes: there HELLO takes up any session with the
 * name whose connection has ended, and each session has a quota of its own.) Where `loans` is
 * above 0, frames[i] is the frame that page i has now, or PAGESHARE_HOST_NO_FRAME if it isn't lent. Otherwise `frames` is what `freed`
 * is there: at most one of the two numbers isn't 0.
 */
struct pageshare_host_served pageshare_host_serve(struct pageshare_host *host, uint32_t session, const uint8_t *bytes, size_t length,
                                                  const uint8_t (*pages)[4096], size_t page_count,
                                                  const struct pageshare_host_allowance *may, uint8_t *reply, size_t reply_room,
                                                  uint32_t *frames, size_t frames_room);

/*
 * Takes back those loans of a session's last LOANS that are in one of these `count` frames: the caller has no memory for them. Their slots
 * are released, and `reply` is LOANS again, in which their pages aren't lent. frames[i] is then the frame of page i, as above. The status
 * is PAGESHARE_HOST_OK, or the first cause that holds in this order: _NO_HOST, _SHORT, _NO_SESSION (it hasn't begun), and nothing has
 * changed then.
 */
struct pageshare_host_served pageshare_host_take_back(struct pageshare_host *host, uint32_t session, const uint32_t *missing,
                                                      size_t count, uint8_t *reply, size_t reply_room, uint32_t *frames,
                                                      size_t frames_room);

/*
 * A session's connection has ended. A session that has slots, or may have some, keeps its number and its slots until
 * pageshare_host_end, or until another connection takes it up by its name. Returns PAGESHARE_HOST_OK, _NO_HOST or _NO_SESSION.
 */
uint32_t pageshare_host_disconnect(struct pageshare_host *host, uint32_t session);

/*
 * A session's connection has ended: ends the session if it has no slots. Returns PAGESHARE_HOST_OK if it has some, and then nothing has
 * changed; _NO_SESSION if no session has the number now; or _NO_HOST.
 */
uint32_t pageshare_host_end_empty(struct pageshare_host *host, uint32_t session);

/*
 * A session's process has ended: releases at most `room` of its slots. *count is how many, and for the i-th of them freed[i] is the
 * frame that is free since, or PAGESHARE_HOST_NO_FRAME. From the first call on the session takes no message. Call it until *count is
 * 0: then the session's number may be another's. Give space for one number at least. Returns PAGESHARE_HOST_OK, or the first
 * cause that holds in this order: _NO_HOST, _SHORT (no space), _NO_SESSION. freed and *count are written only on PAGESHARE_HOST_OK.
 */
uint32_t pageshare_host_end(struct pageshare_host *host, uint32_t session, uint32_t *freed, size_t room, size_t *count);

enum pageshare_host_state {
    PAGESHARE_HOST_STATE_SILENT = 1,  /* connected, and has said nothing */
    PAGESHARE_HOST_STATE_TALKING = 2, /* connected, and has said HELLO */
    PAGESHARE_HOST_STATE_GONE = 3,    /* its connection has ended; it can be taken up by its name */
    PAGESHARE_HOST_STATE_BROKEN = 4,  /* sent a packet at fault; its slots stay until its process ends */
    PAGESHARE_HOST_STATE_ENDED = 5    /* its process has ended, and its slots are being released */
};

struct pageshare_host_session {
    uint32_t state;    /* an enum pageshare_host_state */
    uint32_t slots;    /* how many slots it has */
    uint32_t fault;    /* the fault that broke it, or 0 */
    uint32_t reserved; /* 0 */
    uint64_t messages; /* how many messages it sent, without the one at fault */
};

/* Writes what is known of a session. Returns PAGESHARE_HOST_OK, _NO_HOST or _NO_SESSION. */
uint32_t pageshare_host_session(struct pageshare_host *host, uint32_t session, struct pageshare_host_session *known);

/* What a host counts. */
struct pageshare_host_totals {
    uint32_t machines;
    uint32_t clients;   /* the sessions that have said HELLO and haven't ended */
    uint32_t slots;     /* the slots that sessions have */
    uint32_t frames;    /* the frames in use */
    uint32_t shared;    /* the slots whose frame another slot has, too */
    uint32_t reclaimed; /* slots less frames: what sharing saves */
};

/* Writes the host's totals. It looks at each slot. Returns PAGESHARE_HOST_OK or _NO_HOST. */
uint32_t pageshare_host_report(struct pageshare_host *host, struct pageshare_host_totals *totals);

/* A page's fingerprint under a salt, as clients compute it. docs/FORMATS.md defines it. */
uint64_t pageshare_host_fingerprint(uint32_t salt, const uint8_t page[4096]);

#ifdef __cplusplus
}
#endif

#endif
