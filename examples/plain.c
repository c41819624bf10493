// plain [PAST]: the notices of a day from standard input, without proof: a program to compare speed and notices with.
// plain charges DAY: what `toll_office export DAY` prints of that day.
//
// It reads a right day in the order of Time (lateness 0) under the benchmark's tariffs, in one thread and one pass, and
// writes the notices that `toll_office answers` writes before its closing line. PAST is a history, as `toll_office
// past` reads it, whose base is the day. Nothing is checked: a wrong line is not refused, and there is no digest.
// It was written from docs/RULES.md and docs/FORMATS.md alone.
#include <stdint.h>
#include <stdio.h>
#include <stdlib.h>
#include <string.h>

typedef unsigned __int128 wide;

enum { CROWD = 50, SPEED = 40, FACTOR = 2, EXIT = 4, STOPPED = 4, WAYS = 512, STRETCHES = WAYS * 100 };

typedef struct {
    uint32_t vid, used;
    int xway, dir, lane, seg, pos, run;    // the newest report, and how many of the newest are at its place, up to four
    int minute, reports, at[4], speeds[4]; // those of its newest minute: their stretches and speeds
    uint64_t told, balance;
} Vehicle;

typedef struct {
    int minute, cars;
    uint64_t speeds12; // the sum of the vehicles' mean speeds, in twelfths
} Minute;

typedef struct {
    uint64_t key;
    int count;
} Place;

static Vehicle *vehicles;
static uint32_t room = 1 << 16, held;
static Minute minutes[STRETCHES][6];
static Place *places;
static uint32_t places_room = 1 << 12, places_held;
static int standing[STRETCHES], stood[STRETCHES][2]; // places with an accident now; the last two minutes with one
static int active[STRETCHES], actives;
static char is_active[STRETCHES];
static struct { uint32_t vid; int day, xway; uint64_t tolls; } *past;
static size_t pasts;
static struct Charge { uint32_t vid; int xway; uint64_t tolls; } *charges;
static size_t charged, charges_room;
static char out[1 << 16], silent;
static size_t filled;

static uint32_t mixed(uint64_t key) { return (uint32_t)((key * 0x9e3779b97f4a7c15u) >> 32); }

static Vehicle *find(Vehicle *table, uint32_t size, uint32_t vid) {
    uint32_t i = mixed(vid) & (size - 1);
    while (table[i].used && table[i].vid != vid) i = (i + 1) & (size - 1);
    return &table[i];
}

static Vehicle *vehicle(uint32_t vid) {
    Vehicle *it = find(vehicles, room, vid);
    if (it->used) return it;
    if (2 * ++held > room) {
        Vehicle *more = calloc(2 * room, sizeof *more);
        for (uint32_t i = 0; i < room; i++)
            if (vehicles[i].used) *find(more, 2 * room, vehicles[i].vid) = vehicles[i];
        free(vehicles), vehicles = more, room *= 2;
        it = find(vehicles, room, vid);
    }
    it->vid = vid, it->used = 1;
    return it;
}

static int *stopped_at(uint64_t key) { // places are never taken out; a key is above 0
    if (2 * places_held >= places_room) {
        Place *old = places;
        places = calloc(2 * places_room, sizeof *places), places_room *= 2;
        for (uint32_t i = 0; i < places_room / 2; i++) {
            if (!old[i].key) continue;
            uint32_t j = mixed(old[i].key) & (places_room - 1);
            while (places[j].key) j = (j + 1) & (places_room - 1);
            places[j] = old[i];
        }
        free(old);
    }
    uint32_t i = mixed(key) & (places_room - 1);
    while (places[i].key && places[i].key != key) i = (i + 1) & (places_room - 1);
    if (!places[i].key) places[i].key = key, places_held++;
    return &places[i].count;
}

static int stretch(int xway, int dir, int seg) { return (2 * xway + dir) * 100 + seg; }

static uint64_t key(const Vehicle *v) {
    return ((uint64_t)stretch(v->xway, v->dir, v->seg) * 5 + v->lane) * 528000 + v->pos + 1;
}

static void stop(const Vehicle *v, int by) {
    int s = stretch(v->xway, v->dir, v->seg), *count = stopped_at(key(v)), before = *count >= 2;
    *count += by;
    standing[s] += (*count >= 2) - before;
    if (standing[s] && !is_active[s]) is_active[s] = 1, active[actives++] = s;
}

static void mark(int s, int minute) {
    if (stood[s][0] != minute) stood[s][1] = stood[s][0], stood[s][0] = minute;
}

// The seconds from `from` up to `to` end: what stands at the end of the first stands at that of the others.
static void pass(int from, int to) {
    for (int i = 0; i < actives; i++) {
        int s = active[i];
        if (standing[s]) {
            for (int minute = from / 60 + 1; minute <= (to - 1) / 60 + 1; minute++) mark(s, minute);
        } else {
            is_active[s] = 0, active[i--] = active[--actives];
        }
    }
}

// The segment of the nearest accident of the minute before, here or up to four ahead, -1 for none.
static int near(int xway, int dir, int seg, int minute) {
    for (int i = 0; i < 5; i++) {
        int ahead = dir ? seg - i : seg + i;
        if (ahead < 0 || ahead > 99) break;
        int s = stretch(xway, dir, ahead);
        if (minute > 1 && (stood[s][0] == minute - 1 || stood[s][1] == minute - 1)) return ahead;
    }
    return -1;
}

static void note(int s, Vehicle *v, int minute, int speed) {
    Minute *now = &minutes[s][minute % 6];
    if (now->minute != minute) now->minute = minute, now->cars = 0, now->speeds12 = 0;
    if (v->minute != minute) v->minute = minute, v->reports = 0;
    int before = 0, sum = 0;
    for (int i = 0; i < v->reports; i++)
        if (v->at[i] == s) before++, sum += v->speeds[i];
    if (before) now->speeds12 -= 12 * sum / before; else now->cars++;
    now->speeds12 += 12 * (sum + speed) / (before + 1);
    v->at[v->reports] = s, v->speeds[v->reports++] = speed;
}

static void flush(void) {
    if (!silent) fwrite(out, 1, filled, stdout);
    filled = 0;
}

static void put(uint64_t number, int negative, char after) {
    char digits[24];
    int n = 0;
    if (negative) out[filled++] = '-';
    do digits[n++] = (char)('0' + number % 10); while ((number /= 10));
    while (n) out[filled++] = digits[--n];
    out[filled++] = after;
    if (filled > sizeof out - 256) flush();
}

static void answer(int kind, long time, long asked, uint64_t amount) {
    put(kind, 0, ','), put(time, 0, ','), put(asked, 0, ','), put(amount, 0, '\n');
}

static void tell(Vehicle *v, int time, int minute) {
    int s = stretch(v->xway, v->dir, v->seg), busy = 0, ahead = near(v->xway, v->dir, v->seg, minute);
    wide num = 0, den = 1;
    for (int m = minute - 5; m < minute; m++) {
        if (m < 1 || minutes[s][m % 6].minute != m) continue;
        Minute *it = &minutes[s][m % 6];
        num = num * it->cars + den * it->speeds12, den *= it->cars, busy++;
    }
    den *= 12 * busy;
    int cars = minute > 1 && minutes[s][(minute - 1) % 6].minute == minute - 1 ? minutes[s][(minute - 1) % 6].cars : 0;
    uint64_t over = cars > CROWD ? cars - CROWD : 0;
    v->told = over && busy && num < SPEED * den && ahead < 0 ? FACTOR * over * over : 0;
    if (ahead >= 0) put(1, 0, ','), put(time, 0, ','), put(v->vid, 0, ','), put(ahead, 0, '\n');
    put(0, 0, ','), put(v->vid, 0, ','), put(time, 0, ',');
    put(busy ? (uint64_t)(num / den) : 1, !busy, ','), put(v->told, 0, '\n');
}

static void charge(uint32_t vid, int xway, uint64_t tolls) {
    if (!tolls) return;
    if (charged == charges_room) charges = realloc(charges, (charges_room = 2 * charged + 64) * sizeof *charges);
    charges[charged++] = (struct Charge){vid, xway, tolls};
}

static int in_order(const void *a, const void *b) {
    const struct Charge *x = a, *y = b;
    return x->vid != y->vid ? (x->vid > y->vid) - (x->vid < y->vid) : x->xway - y->xway;
}

static void export(const char *day) {
    qsort(charges, charged, sizeof *charges, in_order);
    puts("vid,day,xway,tolls");
    for (size_t i = 0; i < charged; i++) {
        uint64_t sum = charges[i].tolls;
        for (; i + 1 < charged && !in_order(&charges[i], &charges[i + 1]); i++) sum += charges[i + 1].tolls;
        printf("%u,%s,%d,%llu\n", charges[i].vid, day, charges[i].xway, (unsigned long long)sum);
    }
}

static void report(int time, const long *f) {
    int minute = time / 60 + 1;
    Vehicle *v = vehicle((uint32_t)f[2]), now = *v;
    int first = !v->run, last_lane = v->lane;
    int begins = first || v->xway != f[4] || v->dir != f[6] || v->seg != f[7] || (v->lane == EXIT && f[5] != EXIT);
    now.xway = (int)f[4], now.lane = (int)f[5], now.dir = (int)f[6], now.seg = (int)f[7], now.pos = (int)f[8];
    int same = !first && key(v) == key(&now);
    now.run = same ? (v->run < STOPPED ? v->run + 1 : STOPPED) : 1;
    if (!same && v->run == STOPPED) stop(v, -1);
    if (now.run == STOPPED && v->run == STOPPED - 1) stop(&now, 1);
    if (begins && !first && last_lane != EXIT) now.balance += v->told, charge(v->vid, v->xway, v->told);
    *v = now;
    if (begins && v->lane != EXIT) tell(v, time, minute);
    note(stretch(v->xway, v->dir, v->seg), v, minute, (int)f[3]);
}

static uint64_t paid(const long *f) {
    for (size_t i = 0; i < pasts; i++)
        if (past[i].vid == f[2] && past[i].day == f[14] && past[i].xway == f[4]) return past[i].tolls;
    return 0;
}

static void read_past(const char *name) {
    FILE *file = fopen(name, "r");
    unsigned vid;
    int day, xway;
    unsigned long long tolls;
    while (file && fscanf(file, "%u,%d,%d,%llu", &vid, &day, &xway, &tolls) == 4) {
        past = realloc(past, (pasts + 1) * sizeof *past);
        past[pasts].vid = vid, past[pasts].day = day, past[pasts].xway = xway, past[pasts++].tolls = tolls;
    }
}

int main(int count, char **words) {
    static char in[1 << 16];
    long fields[15] = {0}, time = 0;
    int field = 0, negative = 0, digits = 0;
    vehicles = calloc(room, sizeof *vehicles), places = calloc(places_room, sizeof *places);
    const char *day = count > 2 && !strcmp(words[1], "charges") ? words[2] : 0;
    silent = day != 0;
    if (count > 1 && !day) read_past(words[1]);
    for (size_t n; (n = fread(in, 1, sizeof in, stdin));)
        for (size_t i = 0; i < n; i++) {
            char c = in[i];
            if (c >= '0' && c <= '9') { fields[field] = fields[field] * 10 + c - '0', digits++; continue; }
            if (c == '-') { negative = 1; continue; }
            if (c == '\r') continue;
            if (negative) fields[field] = -fields[field], negative = 0;
            if (c == ',') { fields[++field] = 0; continue; }
            if (digits) {
                if (fields[1] > time) pass((int)time, (int)fields[1]), time = fields[1];
                if (fields[0] == 0) report((int)time, fields);
                if (fields[0] == 2) answer(2, time, fields[9], vehicle((uint32_t)fields[2])->balance);
                if (fields[0] == 3) answer(3, time, fields[9], paid(fields));
            }
            fields[0] = 0, field = 0, digits = 0;
        }
    flush();
    if (day) export(day);
    return fflush(stdout) != 0;
}
