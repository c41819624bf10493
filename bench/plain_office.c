// plain import|answers DAY: the work of the program's two commands with nothing proved, to say what the proof costs.
//
// Reads a day from standard input, writes its notices and the closing line, and, for `import`, takes the digests of
// both and keeps the day in tolls.db. One thread, one pass, lateness 0, the usual tariff. A want of memory ends it
// with 8, a fault of the database with 6. A word behind the day has the two digests written on standard error.
//
// It is written with care: a line is cut and read in one pass, all that is kept of a vehicle is a row of 64 bytes, and
// so is what is kept of a stretch; the rows of the next lines are asked for while those before are worked on; and the
// schedules of four blocks of a digest are made at once.
#include <stdint.h>
#include <stdio.h>
#include <stdlib.h>
#include <string.h>
#include <unistd.h>
#ifndef NO_DATABASE
#include <sqlite3.h>
#endif

enum { SEGMENTS = 100, STRETCHES = 256 * 2 * SEGMENTS, FIELDS = 15, LINES = 16000000, VEHICLES = 500000 };
enum { LONGEST = 200, PIECE = 1 << 16, NEXT = 32, EXIT = 4, STOPPED = 4, CROWD = 50, SPEED = 40, NOTHING = 0xff };

static void *need(void *p) {
    if (!p) exit(8);
    return p;
}

static void *more_of(void *p, size_t size, size_t count) { return need(realloc(p, size * count)); }

// SHA-256
typedef uint32_t Four __attribute__((vector_size(16)));
typedef struct { uint32_t h[8]; uint64_t count; uint8_t held[64]; } Digest;

static const uint32_t K[64] = {
    0x428a2f98, 0x71374491, 0xb5c0fbcf, 0xe9b5dba5, 0x3956c25b, 0x59f111f1, 0x923f82a4, 0xab1c5ed5,
    0xd807aa98, 0x12835b01, 0x243185be, 0x550c7dc3, 0x72be5d74, 0x80deb1fe, 0x9bdc06a7, 0xc19bf174,
    0xe49b69c1, 0xefbe4786, 0x0fc19dc6, 0x240ca1cc, 0x2de92c6f, 0x4a7484aa, 0x5cb0a9dc, 0x76f988da,
    0x983e5152, 0xa831c66d, 0xb00327c8, 0xbf597fc7, 0xc6e00bf3, 0xd5a79147, 0x06ca6351, 0x14292967,
    0x27b70a85, 0x2e1b2138, 0x4d2c6dfc, 0x53380d13, 0x650a7354, 0x766a0abb, 0x81c2c92e, 0x92722c85,
    0xa2bfe8a1, 0xa81a664b, 0xc24b8b70, 0xc76c51a3, 0xd192e819, 0xd6990624, 0xf40e3585, 0x106aa070,
    0x19a4c116, 0x1e376c08, 0x2748774c, 0x34b0bcb5, 0x391c0cb3, 0x4ed8aa4a, 0x5b9cca4f, 0x682e6ff3,
    0x748f82ee, 0x78a5636f, 0x84c87814, 0x8cc70208, 0x90befffa, 0xa4506ceb, 0xbef9a3f7, 0xc67178f2,
};

#define TURN(x, n) ((x) >> (n) | (x) << (32 - (n)))

static uint32_t word(const uint8_t *p) {
    uint32_t v;
    memcpy(&v, p, 4);
    return __builtin_bswap32(v);
}

// Four blocks, or one: what is worked out beside it is then the same.
static void blocks(uint32_t *h, const uint8_t *p, int count) {
    Four w[64];
    size_t far = count == 4 ? 64 : 0;
    for (int i = 0; i < 16; i++, p += 4) w[i] = (Four){word(p), word(p + far), word(p + 2 * far), word(p + 3 * far)};
    for (int i = 16; i < 64; i++) {
        Four a = w[i - 15], b = w[i - 2];
        w[i] = w[i - 16] + (TURN(a, 7) ^ TURN(a, 18) ^ a >> 3) + w[i - 7] + (TURN(b, 17) ^ TURN(b, 19) ^ b >> 10);
    }
    for (int i = 0; i < 64; i++) w[i] += (Four){K[i], K[i], K[i], K[i]};
    for (int k = 0; k < count; k++) {
        const uint32_t *of = (const uint32_t *)w + k;
        uint32_t s[8];
        memcpy(s, h, sizeof s);
#define STEP(a, b, c, d, e, f, g, h, i) { \
        uint32_t t = h + (TURN(e, 6) ^ TURN(e, 11) ^ TURN(e, 25)) + (g ^ (e & (f ^ g))) + of[4 * (i)]; \
        d += t; h = t + (TURN(a, 2) ^ TURN(a, 13) ^ TURN(a, 22)) + (b ^ ((a ^ b) & (b ^ c))); }
        for (int i = 0; i < 64; i += 8) {
            STEP(s[0], s[1], s[2], s[3], s[4], s[5], s[6], s[7], i)
            STEP(s[7], s[0], s[1], s[2], s[3], s[4], s[5], s[6], i + 1)
            STEP(s[6], s[7], s[0], s[1], s[2], s[3], s[4], s[5], i + 2)
            STEP(s[5], s[6], s[7], s[0], s[1], s[2], s[3], s[4], i + 3)
            STEP(s[4], s[5], s[6], s[7], s[0], s[1], s[2], s[3], i + 4)
            STEP(s[3], s[4], s[5], s[6], s[7], s[0], s[1], s[2], i + 5)
            STEP(s[2], s[3], s[4], s[5], s[6], s[7], s[0], s[1], i + 6)
            STEP(s[1], s[2], s[3], s[4], s[5], s[6], s[7], s[0], i + 7)
        }
        for (int i = 0; i < 8; i++) h[i] += s[i];
    }
}

static void begin(Digest *d) {
    static const uint32_t h[8] = {
        0x6a09e667, 0xbb67ae85, 0x3c6ef372, 0xa54ff53a, 0x510e527f, 0x9b05688c, 0x1f83d9ab, 0x5be0cd19,
    };
    memcpy(d->h, h, sizeof h), d->count = 0;
}

static void add(Digest *d, const uint8_t *p, size_t n) {
    size_t have = d->count % 64;
    d->count += n;
    if (have) {
        size_t more = 64 - have < n ? 64 - have : n;
        memcpy(d->held + have, p, more), p += more, n -= more;
        if (have + more < 64) return;
        blocks(d->h, d->held, 1);
    }
    for (; n >= 256; p += 256, n -= 256) blocks(d->h, p, 4);
    for (; n >= 64; p += 64, n -= 64) blocks(d->h, p, 1);
    memcpy(d->held, p, n);
}

static void end(Digest *d, uint8_t *out) {
    uint64_t bits = __builtin_bswap64(d->count * 8);
    static const uint8_t pad[64] = {0x80};
    add(d, pad, (d->count % 64 < 56 ? 56 : 120) - d->count % 64);
    add(d, (uint8_t *)&bits, 8);
    for (int i = 0; i < 8; i++) { uint32_t v = __builtin_bswap32(d->h[i]); memcpy(out + 4 * i, &v, 4); }
}

// What is written.
static int importing;
static Digest taken, given;
static char text[PIECE], *at = text;
static uint64_t notices;

static void flush(void) {
    if (importing) add(&given, (uint8_t *)text, (size_t)(at - text));
    for (char *p = text; p < at;) {
        ssize_t n = write(1, p, (size_t)(at - p));
        if (n <= 0) exit(5);
        p += n;
    }
    at = text;
}

static const char PAIRS[] =
    "0001020304050607080910111213141516171819202122232425262728293031323334353637383940414243444546474849"
    "5051525354555657585960616263646566676869707172737475767778798081828384858687888990919293949596979899";

// A number and what stands behind it.
static inline void number(uint64_t value, char behind) {
    char digits[20], *from = digits + sizeof digits;
    while (value >= 100) from -= 2, memcpy(from, PAIRS + value % 100 * 2, 2), value /= 100;
    if (value >= 10) from -= 2, memcpy(from, PAIRS + value * 2, 2);
    else *--from = (char)('0' + value);
    size_t count = (size_t)(digits + sizeof digits - from);
    memcpy(at, from, count), at += count, *at++ = behind;
}

static void room(void) { if (at > text + sizeof text - 128) flush(); }

static void notice(int kind, uint64_t a, uint64_t b, uint64_t c) {
    room();
    number((uint64_t)kind, ','), number(a, ','), number(b, ','), number(c, '\n'), notices++;
}

// The lines.
typedef struct {
    const char *name;         // of a report: its vehicle's number as the line has it, and a comma; none where it has a 0 too many
    uint32_t time, vid, what; // what: the position of a report, the number of a request
    uint32_t line;
    uint16_t stretch;         // 200 for each expressway, 100 for west, and the segment
    uint8_t kind, speed, lane, length, day;
} Tuple;

static const int64_t UNUSED = 9999999999, NAME = 2147483647;
static const int64_t MOST[5][FIELDS] = {
    {4, 86399, NAME, 100, 255, 4, 1, 99, 527999}, {0}, {4, 86399, NAME, 0, 0, 0, 0, 0, 0, NAME},
    {4, 86399, NAME, 0, 255, 0, 0, 0, 0, NAME, 0, 0, 0, 0, 69}, {4, 86399},
};
static const uint16_t USED[5] = {0x1ff, 0, 0x207, 0x4217, 0x3};

static char cause[64]; // what is wrong with a line

// The fields of any line; 0 where one is wrong.
static int fields_of(const char *p, const char *stop, int64_t *f) {
    int bad = 0, i = 0;
    for (;; i++) {
        int minus = p < stop && *p == '-', digits = 0;
        int64_t value = 0;
        for (p += minus; p < stop && (unsigned)(*p - '0') < 10; p++) if (digits++ < 10) value = 10 * value + (*p - '0');
        if (!bad && (digits < 1 || digits > 10 || (p < stop && *p != ','))) bad = i + 1;
        if (i < FIELDS) f[i] = minus ? -value : value;
        while (p < stop && *p != ',') p++;
        if (p == stop) break;
        p++;
    }
    if (i + 1 != FIELDS) return sprintf(cause, "fields %d", i + 1), 0;
    if (bad) return sprintf(cause, "number %d", bad), 0;
    int kind = (int)f[0];
    if (f[0] < 0 || f[0] > 4 || f[0] == 1) return sprintf(cause, "range 1"), 0;
    for (i = 1; i < FIELDS; i++) {
        int used = USED[kind] >> i & 1, low = used ? kind == 3 && i == 14 : -1;
        if (f[i] < low || f[i] > (used ? MOST[kind][i] : UNUSED)) return sprintf(cause, "range %d", i + 1), 0;
    }
    return 1;
}

static int any_line(const char *p, const char *stop, Tuple *t) {
    int64_t f[FIELDS];
    if (!fields_of(p, stop, f)) return 0;
    *t = (Tuple){.time = (uint32_t)f[1], .vid = (uint32_t)f[2], .what = (uint32_t)f[f[0] ? 9 : 8], .kind = (uint8_t)f[0]};
    if (t->kind == 0) {
        t->stretch = (uint16_t)((f[4] * 2 + f[6]) * SEGMENTS + f[7]), t->speed = (uint8_t)f[3], t->lane = (uint8_t)f[5];
    }
    if (t->kind == 3) t->stretch = (uint16_t)(f[4] * 2 * SEGMENTS), t->day = (uint8_t)f[14];
    return 1;
}

// The time of the line before as lines of reports have it, for those of the same second.
static uint64_t front, front_mask = UINT64_MAX;
static uint32_t front_length, front_time;

static inline uint32_t digit(const char *p) { return (uint32_t)(uint8_t)*p - '0'; }

// A number of up to `most` digits and a comma: the place behind it.
static inline __attribute__((always_inline)) const char *field(const char *p, int most, uint32_t *value) {
    uint32_t v = digit(p++);
    if (v > 9) return 0;
    for (int i = 1; i < most; i++, p++) {
        uint32_t d = digit(p);
        if (d > 9) break;
        v = 10 * v + d;
    }
    *value = v;
    return *p == ',' ? p + 1 : 0;
}

// A report as most lines have it: the place behind the line, or none where another look is needed.
static inline __attribute__((always_inline)) const char *report_line(const char *p, Tuple *t) {
    static const char REST[] = "-1,-1,-1,-1,-1,-1\n";
    uint64_t head;
    uint32_t speed, way, seg, pos;
    memcpy(&head, p, 8);
    if ((head & front_mask) != front) {
        uint32_t time;
        const char *behind = p[0] == '0' && p[1] == ',' ? field(p + 2, 5, &time) : 0;
        if (!behind) return 0;
        front_time = time, front_length = (uint32_t)(behind - p);
        front_mask = front_length == 8 ? UINT64_MAX : ((uint64_t)1 << 8 * front_length) - 1, front = head & front_mask;
    }
    const char *name = p += front_length;
    if (!(p = field(p, 9, &t->vid))) {
        uint64_t vid = 0;
        for (p = name; p < name + 10; p++) {
            if (digit(p) > 9) return 0;
            vid = 10 * vid + digit(p);
        }
        if (vid > (uint64_t)NAME || *p++ != ',') return 0;
        t->vid = (uint32_t)vid;
    }
    t->length = (uint8_t)(p - name), t->name = *name != '0' || t->length == 2 ? name : 0;
    if (!(p = field(p, 3, &speed)) || !(p = field(p, 3, &way))) return 0;
    uint32_t lane = digit(p), dir = digit(p + 2);
    if (p[1] != ',' || p[3] != ',') return 0;
    if (!(p = field(p + 4, 2, &seg)) || !(p = field(p, 6, &pos))) return 0;
    if (memcmp(p, REST, 16) || memcmp(p + 16, REST + 16, 2)) return 0;
    if (front_time > 86399 || speed > 100 || way > 255 || lane > 4 || dir > 1 || pos > 527999) return 0;
    t->time = front_time, t->what = pos, t->stretch = (uint16_t)((way * 2 + dir) * SEGMENTS + seg);
    t->kind = 0, t->speed = (uint8_t)speed, t->lane = (uint8_t)lane;
    return p + 18;
}

// The vehicles: a row each, found by an open table of their numbers.
typedef struct {
    uint64_t place;        // where it was last: stretch, lane and position; all ones before its first report
    uint64_t told, account;
    uint64_t owed;         // on the first expressway on which it owes
    uint16_t at[4];        // the stretches of its reports of the minute, and their speeds
    uint8_t speeds[4];
    uint32_t vid;
    int32_t others;        // the newest of what it owes on others
    uint16_t minute, way;  // of its last report, and the expressway of `owed`
    uint8_t reports, run;  // in the minute; and how many of its last reports, 4 at most, are from one place
} Row;
typedef struct { int32_t way, next; uint64_t sum; } Owed;
typedef struct { uint32_t vid, row; } Slot; // the row's number and one

static Row *rows;
static Slot *table;
static Owed *owed;
static uint32_t row_count, table_bits = 12, owed_count, owed_room;

static inline Slot *first_slot(uint32_t vid) { return table + (vid * 2654435761u >> (32 - table_bits)); }

static inline Slot *slot_of(uint32_t vid) {
    Slot *slot = first_slot(vid), *stop = table + ((size_t)1 << table_bits);
    while (slot->row && slot->vid != vid) if (++slot == stop) slot = table;
    return slot;
}

static Row *new_row(uint32_t vid) {
    if (2 * row_count >= (uint32_t)1 << table_bits) {
        free(table), table = need(calloc((size_t)1 << ++table_bits, sizeof *table));
        for (uint32_t i = 0; i < row_count; i++) *slot_of(rows[i].vid) = (Slot){rows[i].vid, i + 1};
    }
    *slot_of(vid) = (Slot){vid, row_count + 1};
    rows[row_count] = (Row){.place = UINT64_MAX, .vid = vid, .others = -1, .way = UINT16_MAX};
    return rows + row_count++;
}

// The stretches: what was noted in the last minutes, and what is told of one in a minute.
typedef struct {
    uint32_t sums[6], cars[6]; // in twelfths of a mile per hour
    uint64_t toll;
    uint16_t minute, told_in;
    int8_t lav;
    uint8_t alert;
} Stretch;
typedef struct { int32_t stands, marked; } Blocked; // accidents that stand there; the minute that has one

static Stretch *stretches;
static Blocked *blocked;
static uint16_t *had; // the minute that follows one with an accident

static int ahead(int stretch, int i) {
    int seg = stretch % SEGMENTS, west = stretch / SEGMENTS % 2;
    if (west ? seg < i : seg + i >= SEGMENTS) return -1;
    return west ? stretch - i : stretch + i;
}

static void roll(Stretch *s, int minute) {
    for (int m = minute, stale = minute - s->minute; stale > 0 && m > minute - 6; m--, stale--)
        s->sums[(m + 6) % 6] = s->cars[(m + 6) % 6] = 0;
    s->minute = (uint16_t)minute;
}

// The average of the five minutes before in whole miles per hour, -1 for none. Few cars need no wide numbers.
static void average(Stretch *s, int minute) {
    uint64_t above = 0, below = 1, known = 0;
    unsigned __int128 wide_above = 0, wide_below = 1;
    uint32_t any = 0;
    for (int i = 0; i < 6; i++) any |= s->cars[i];
    s->lav = -1;
    for (int m = minute + 1; m < minute + 6; m++) {
        uint64_t cars = s->cars[m % 6], sum = s->sums[m % 6];
        if (!cars) continue;
        known++;
        if (any < 1024) above = above * cars + sum * below, below *= cars;
        else wide_above = wide_above * cars + sum * wide_below, wide_below *= cars;
    }
    if (!known) return;
    if (any >= 1024) { s->lav = (int8_t)(wide_above / (12 * known * wide_below)); return; }
    below *= 12 * known;
    uint64_t lav = (uint64_t)((double)(int64_t)above / (double)(int64_t)below); // one too many or too few at most
    s->lav = (int8_t)(lav - (lav * below > above) + ((lav + 1) * below <= above));
}

static void tell(Stretch *s, int stretch, int minute) {
    s->told_in = (uint16_t)minute, s->alert = NOTHING, s->toll = 0;
    for (int i = 0; i <= 4 && s->alert == NOTHING; i++) {
        int far = ahead(stretch, i);
        if (far >= 0 && had[far] == minute) s->alert = (uint8_t)(far % SEGMENTS);
    }
    average(s, minute);
    uint64_t cars = s->cars[(minute + 5) % 6];
    if (s->lav >= 0 && s->lav < SPEED && cars > CROWD && s->alert == NOTHING) s->toll = 2 * (cars - CROWD) * (cars - CROWD);
}

static inline void note(Row *v, Stretch *s, int stretch, int minute, uint32_t speed) {
    static const uint32_t TWELFTHS[5] = {0, 12, 6, 4, 3};
    uint32_t sum = 0, count = 0, k = (uint32_t)minute % 6;
    for (int i = 0; i < v->reports; i++) if (v->at[i] == stretch) sum += v->speeds[i], count++;
    s->cars[k] += count == 0;
    s->sums[k] += TWELFTHS[count + 1] * (sum + speed) - TWELFTHS[count] * sum;
    v->at[v->reports] = (uint16_t)stretch, v->speeds[v->reports++] = (uint8_t)speed;
}

// The accidents: how many vehicles stand at a place, looked at when its second ends.
typedef struct { uint64_t place; int32_t count, stands, touched; } Spot; // a place is kept as one more

static Spot *spots;
static uint32_t spot_room = 1 << 12, spot_count;
static uint64_t *touched; // the places of the second
static int touched_count, *marked, marked_count, second = -1;
static size_t touched_room = 64, marked_room = 64;

static int stretch_of(uint64_t place) { return (int)(place >> 23); }
static int lane_of(uint64_t place) { return (int)(place >> 20 & 7); }

static Spot *spot_of(Spot *in, uint32_t among, uint64_t place) {
    uint32_t i = (uint32_t)(place * 0x9e3779b97f4a7c15u >> 40) & (among - 1);
    while (in[i].place && in[i].place != place + 1) i = (i + 1) & (among - 1);
    return in + i;
}

static void grow(void) {
    Spot *more = need(calloc(2 * spot_room, sizeof *more));
    spot_count = 0;
    for (uint32_t i = 0; i < spot_room; i++)
        if (spots[i].count || spots[i].stands || spots[i].touched)
            *spot_of(more, 2 * spot_room, spots[i].place - 1) = spots[i], spot_count++;
    free(spots), spots = more, spot_room *= 2;
}

static void stand(uint64_t place, int change) {
    if (2 * spot_count > spot_room) grow();
    Spot *spot = spot_of(spots, spot_room, place);
    if (!spot->place) *spot = (Spot){place + 1, 0, 0, 0}, spot_count++;
    spot->count += change;
    if (spot->touched) return;
    if ((size_t)touched_count == touched_room) touched = more_of(touched, sizeof *touched, touched_room *= 2);
    spot->touched = 1, touched[touched_count++] = place;
}

static void mark(int stretch, int minute) {
    if (blocked[stretch].marked == minute) return;
    if ((size_t)marked_count == marked_room) marked = more_of(marked, sizeof *marked, marked_room *= 2);
    blocked[stretch].marked = minute, marked[marked_count++] = stretch;
}

static void end_second(void) {
    for (int i = 0; i < touched_count; i++) {
        Spot *spot = spot_of(spots, spot_room, touched[i]);
        int stretch = stretch_of(touched[i]);
        Blocked *b = blocked + stretch;
        spot->touched = 0;
        if (spot->count >= 2 && !spot->stands) spot->stands = 1, b->stands++, mark(stretch, second / 60 + 1);
        if (spot->count < 2 && spot->stands) {
            spot->stands = 0, b->stands--;
            if (second % 60) mark(stretch, second / 60 + 1); // it stood a second ago
            else if (!b->stands) b->marked = -1; // it stood in no second of this minute
        }
    }
    touched_count = 0;
}

static void end_minute(int before, int minute) {
    int kept = 0;
    for (int i = 0; i < marked_count; i++) {
        Blocked *b = blocked + marked[i];
        if (b->stands || (b->marked == before && before + 1 == minute)) had[marked[i]] = (uint16_t)minute;
        if (b->stands) marked[kept++] = marked[i], b->marked = minute;
    }
    marked_count = kept;
}

static void reach(int time) {
    if (second >= 0) {
        end_second();
        if (second / 60 != time / 60) end_minute(second / 60 + 1, time / 60 + 1);
    }
    second = time;
}

#ifndef NO_DATABASE
static sqlite3 *database;

static void call(int status) {
    if (status != SQLITE_OK && status != SQLITE_DONE && status != SQLITE_ROW) exit(6);
}

static void opened(void) {
    if (database) return;
    call(sqlite3_open("tolls.db", &database));
    call(sqlite3_exec(database,
        "CREATE TABLE IF NOT EXISTS days (day INTEGER PRIMARY KEY, digest BLOB NOT NULL, bytes INTEGER NOT NULL,"
        " tuples INTEGER NOT NULL, notices INTEGER NOT NULL, notices_digest BLOB NOT NULL,"
        " total INTEGER NOT NULL) STRICT;"
        "CREATE TABLE IF NOT EXISTS spent (day INTEGER NOT NULL, vid INTEGER NOT NULL, xway INTEGER NOT NULL,"
        " tolls INTEGER NOT NULL, PRIMARY KEY (day, vid, xway)) STRICT", 0, 0, 0));
}

static uint64_t spent_on(int64_t day, int64_t vid, int64_t xway) {
    static sqlite3_stmt *ask;
    opened();
    const char *query = "SELECT tolls FROM spent WHERE day = ? AND vid = ? AND xway = ?";
    if (!ask) call(sqlite3_prepare_v2(database, query, -1, &ask, 0));
    sqlite3_bind_int64(ask, 1, day), sqlite3_bind_int64(ask, 2, vid), sqlite3_bind_int64(ask, 3, xway);
    int row = sqlite3_step(ask);
    call(row);
    uint64_t tolls = row == SQLITE_ROW ? (uint64_t)sqlite3_column_int64(ask, 0) : 0;
    call(sqlite3_reset(ask));
    return tolls;
}

static void put_sum(sqlite3_stmt *put, int64_t day, uint32_t vid, int way, uint64_t sum) {
    if (!sum) return;
    sqlite3_bind_int64(put, 1, day), sqlite3_bind_int64(put, 2, vid);
    sqlite3_bind_int64(put, 3, way), sqlite3_bind_int64(put, 4, (int64_t)sum);
    call(sqlite3_step(put)), call(sqlite3_reset(put));
}

static int by_name(const void *a, const void *b) {
    uint32_t x = rows[*(const uint32_t *)a].vid, y = rows[*(const uint32_t *)b].vid;
    return (x > y) - (x < y);
}

static int by_way(const void *a, const void *b) { return ((const Owed *)a)->way - ((const Owed *)b)->way; }

static void keep(int64_t day, uint64_t bytes, const uint8_t *digest, const uint8_t *notices_digest, uint64_t tuples,
                 uint64_t total) {
    sqlite3_stmt *put;
    uint32_t *order = need(malloc(sizeof *order * (row_count + 1))), count = 0;
    opened();
    call(sqlite3_exec(database, "BEGIN", 0, 0, 0));
    call(sqlite3_prepare_v2(database, "INSERT INTO days VALUES (?, ?, ?, ?, ?, ?, ?)", -1, &put, 0));
    sqlite3_bind_int64(put, 1, day), sqlite3_bind_blob(put, 2, digest, 32, SQLITE_STATIC);
    sqlite3_bind_int64(put, 3, (int64_t)bytes), sqlite3_bind_int64(put, 4, (int64_t)tuples);
    sqlite3_bind_int64(put, 5, (int64_t)notices), sqlite3_bind_blob(put, 6, notices_digest, 32, SQLITE_STATIC);
    sqlite3_bind_int64(put, 7, (int64_t)total);
    call(sqlite3_step(put)), call(sqlite3_finalize(put));
    for (uint32_t i = 0; i < row_count; i++) if (rows[i].account) order[count++] = i;
    qsort(order, count, sizeof *order, by_name);
    call(sqlite3_prepare_v2(database, "INSERT INTO spent VALUES (?, ?, ?, ?)", -1, &put, 0));
    for (uint32_t i = 0; i < count; i++) {
        Row *v = rows + order[i];
        Owed ways[256] = {{v->way, 0, v->owed}};
        size_t of = 1;
        for (int32_t k = v->others; k >= 0; k = owed[k].next) ways[of++] = owed[k];
        qsort(ways, of, sizeof *ways, by_way);
        for (size_t k = 0; k < of; k++) put_sum(put, day, v->vid, ways[k].way, ways[k].sum);
    }
    call(sqlite3_finalize(put)), call(sqlite3_exec(database, "COMMIT", 0, 0, 0)), call(sqlite3_close_v2(database));
    free(order);
}
#else
static uint64_t spent_on(int64_t day, int64_t vid, int64_t xway) { return (void)day, (void)vid, (void)xway, 0; }
static void keep(int64_t day, uint64_t bytes, const uint8_t *digest, const uint8_t *notices_digest, uint64_t tuples,
                 uint64_t total) {
    (void)day, (void)bytes, (void)digest, (void)notices_digest, (void)tuples, (void)total;
    fputs("no database: nothing is kept\n", stderr);
}
#endif

// The work of a tuple.
static char clock_text[16]; // the second in digits, and a comma
static size_t clock_length;

static inline void copy(const char *from, size_t count) { memcpy(at, from, 16), at += count; } // up to 16

static void told(const Tuple *t, const Stretch *s) {
    if (at > text + sizeof text - 128) flush();
    if (s->alert != NOTHING) {
        *at++ = '1', *at++ = ',', copy(clock_text, clock_length), number(t->vid, ','), number(s->alert, '\n'), notices++;
    }
    *at++ = '0', *at++ = ',';
    if (t->name) copy(t->name, t->length);
    else number(t->vid, ',');
    copy(clock_text, clock_length);
    if (s->lav < 0) *at++ = '-', *at++ = '1', *at++ = ',';
    else number((uint64_t)s->lav, ',');
    number(s->toll, '\n'), notices++;
}

static void charge(Row *v, int way) {
    if (!v->told) return;
    v->account += v->told;
    if (v->way == UINT16_MAX) v->way = (uint16_t)way;
    if (v->way == way) { v->owed += v->told; return; }
    int32_t i = v->others;
    while (i >= 0 && owed[i].way != way) i = owed[i].next;
    if (i < 0) {
        if (owed_count == owed_room) owed_room = 2 * owed_room + 64, owed = more_of(owed, sizeof *owed, owed_room);
        i = (int32_t)owed_count++, owed[i] = (Owed){way, v->others, 0}, v->others = i;
    }
    owed[i].sum += v->told;
}

static void report(Row *v, const Tuple *t, int minute) {
    uint64_t place = (uint64_t)t->stretch << 23 | (uint64_t)t->lane << 20 | t->what, last = v->place;
    int first = last == UINT64_MAX, exits = lane_of(last) == EXIT;
    Stretch *s = stretches + t->stretch;
    if (s->minute != minute) roll(s, minute);
    if (last == place) {
        if (v->run < STOPPED && ++v->run == STOPPED) stand(place, 1);
    } else {
        if (v->run == STOPPED) stand(last, -1);
        v->run = 1, v->place = place;
        if (first || stretch_of(last) != t->stretch || (exits && t->lane != EXIT)) {
            if (!first && !exits) charge(v, stretch_of(last) / (2 * SEGMENTS));
            if (t->lane != EXIT) {
                if (s->told_in != minute) tell(s, t->stretch, minute);
                told(t, s), v->told = s->toll;
            }
        }
    }
    note(v, s, t->stretch, minute, t->speed);
}

static int64_t day;
static uint64_t tuples;

static int refuse(uint32_t line, const char *why) {
    flush();
    printf("# refused line %u %s\n", line, why);
    return 2;
}

// A tuple whose vehicle has a row, or has none yet: 0, or the status that ends the day.
static int work(const Tuple *t, Row *v) {
    int minute = (int)t->time / 60 + 1;
    if (t->kind == 0) {
        if (!v) {
            if (row_count == VEHICLES) return sprintf(cause, "vehicles %d", VEHICLES), refuse(t->line, cause);
            v = new_row(t->vid);
        }
        if (v->minute != minute) v->minute = (uint16_t)minute, v->reports = 0;
        if (v->reports == 4) return sprintf(cause, "too-often %u %d", v->vid, minute), refuse(t->line, cause);
    }
    if ((int)t->time != second) {
        reach((int)t->time);
        clock_length = (size_t)sprintf(clock_text, "%d,", second);
    }
    tuples++;
    if (t->kind == 0) report(v, t, minute);
    if (t->kind == 2) notice(2, t->time, t->what, v ? v->account : 0);
    if (t->kind == 3) notice(3, t->time, t->what, spent_on(day - t->day, t->vid, t->stretch / (2 * SEGMENTS)));
    return 0;
}

// Some tuples in turn; what each needs is asked for before the first is worked on.
static int work_all(const Tuple *of, int count) {
    Row *found[NEXT];
    for (int i = 0; i < count; i++) {
        const Slot *slot = slot_of(of[i].vid);
        found[i] = slot->row ? rows + slot->row - 1 : 0;
        __builtin_prefetch(found[i], 1), __builtin_prefetch(stretches + of[i].stretch, 1);
    }
    for (int i = 0; i < count; i++) {
        Row *v = found[i];
        if (!v) { const Slot *slot = slot_of(of[i].vid); v = slot->row ? rows + slot->row - 1 : 0; } // it may have come since
        int status = work(of + i, v);
        if (status) return status;
    }
    return 0;
}

static void show(const char *name, const uint8_t *digest) {
    fprintf(stderr, "%s ", name);
    for (int i = 0; i < 32; i++) fprintf(stderr, "%02x", digest[i]);
    fputc('\n', stderr);
}

// The bytes that are held of the day, and its lines.
static char in[PIECE + 256], *from = in, *to = in;
static uint64_t bytes;
static uint32_t line_number, newest; // the time of the last tuple
static int ended;

// What is held goes to the front, and more is read behind it: 0 where that fails.
static int fill(void) {
    size_t held = (size_t)(to - from);
    memmove(in, from, held), from = in, to = in + held;
    ssize_t more = read(0, to, PIECE - held);
    if (more < 0) return 0;
    if (importing) add(&taken, (uint8_t *)to, (size_t)more);
    bytes += (uint64_t)more, to += more, ended = more == 0;
    return 1;
}

// The tuples of the next lines that are held whole; `cause` is filled where a line is refused.
static int cut(Tuple *next) {
    int count = 0;
    while (count < NEXT) {
        Tuple *t = next + count;
        const char *behind = report_line(from, t);
        if (!behind || behind > to) {
            size_t held = (size_t)(to - from);
            char *stop = memchr(from, '\n', held);
            if (!stop && held <= LONGEST && (!ended || !held)) break;
            if (!stop) stop = to;
            behind = stop < to ? stop + 1 : stop, line_number++;
            if (stop - from > LONGEST) { strcpy(cause, "long"); break; }
            if (stop > from && stop[-1] == '\r') stop--;
            if (line_number > LINES) { sprintf(cause, "many %d", LINES); break; }
            if (stop == from) { from = (char *)behind; continue; }
            if (!any_line(from, stop, t)) break;
        } else if (++line_number > LINES) { sprintf(cause, "many %d", LINES); break; }
        if (t->time < newest) { sprintf(cause, "late %u %u", newest, t->time); break; }
        newest = t->time, t->line = line_number, from = (char *)behind, count++;
        __builtin_prefetch(first_slot(t->vid));
    }
    return count;
}

// The day from standard input: 0, or the status that ends it.
static int read_day(void) {
    Tuple next[NEXT];
    for (;;) {
        int count = cut(next), status = work_all(next, count);
        if (status) return status;
        if (*cause) return refuse(line_number, cause);
        if (count == NEXT) continue;
        if (ended) return 0;
        if (!fill()) return flush(), puts("# read fault"), 4;
    }
}

int main(int count, char **words) {
    uint64_t total = 0;
    uint8_t digest[32], notices_digest[32];
    if (count < 3 || (strcmp(words[1], "import") && strcmp(words[1], "answers"))) return puts("# words"), 1;
    importing = words[1][0] == 'i', day = atoll(words[2]);
    rows = need(aligned_alloc(64, sizeof *rows * VEHICLES)), table = need(calloc((size_t)1 << table_bits, sizeof *table));
    stretches = need(aligned_alloc(64, sizeof *stretches * STRETCHES)), memset(stretches, 0, sizeof *stretches * STRETCHES);
    blocked = need(calloc(STRETCHES, sizeof *blocked)), had = need(calloc(STRETCHES, sizeof *had));
    spots = need(calloc(spot_room, sizeof *spots));
    touched = more_of(0, sizeof *touched, touched_room), marked = more_of(0, sizeof *marked, marked_room);
    begin(&taken), begin(&given);
    int status = read_day();
    if (status) return status;
    flush();
    unsigned long long of = tuples, told = notices;
    if (!importing) return printf("# answered day %lld tuples %llu notices %llu\n", (long long)day, of, told), 0;
    end(&taken, digest), end(&given, notices_digest);
    for (uint32_t i = 0; i < row_count; i++) total += rows[i].account;
    keep(day, bytes, digest, notices_digest, tuples, total);
    if (count > 3) show("digest", digest), show("notices-digest", notices_digest);
    printf("# stored day %lld tuples %llu notices %llu total %llu\n", (long long)day, of, told, (unsigned long long)total);
    return 0;
}
