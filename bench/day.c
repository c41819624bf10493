// day LINES VEHICLES EXPRESSWAYS MINUTES SEED: writes a day of tolls to standard output, the same for the same words.
//
// Each vehicle on the road reports every 30 seconds; their number grows with the root of the time, up to the end of
// the day. A trip enters in lane 0 and leaves in lane 4. Vehicles slow down where it is dense, so that tolls are due.
// Some trips are made by two vehicles side by side, which stop together for 4 to 12 reports: an accident. Behind some
// reports stands a request: of 1,000 lines 10 ask for a balance, 1 for an earlier day, and 1 is a travel time's.
#include <stdint.h>
#include <stdio.h>
#include <stdlib.h>

enum { FEET = 5280, SEGMENTS = 100, SECONDS = 30 };

typedef struct {
    int vehicle, twin; // the twin drives beside it, or is -1
    int way;           // twice the expressway, and 1 for west
    int place, end;    // feet driven from where the way begins, and the segment of the exit
    int speed, stands; // its wish in miles per hour, and the reports that it still makes standing
    int counted;       // the stretch in whose count it is, or -1
    int reports;       // made so far
} Trip;

typedef struct {
    Trip *trips;
    size_t count, room;
} Second;

static uint64_t state;

static uint64_t next(void) { // xorshift, multiplied
    state ^= state >> 12;
    state ^= state << 25;
    state ^= state >> 27;
    return state * 2685821657736338717u;
}

static int below(int most) { return (int)((next() >> 33) % (uint64_t)most); }

static char text[1 << 20], *at = text;
static long lines, written;

static void number(long value) {
    char digits[20];
    int count = 0;
    if (value < 0) *at++ = '-', value = -value;
    do digits[count++] = (char)('0' + value % 10); while ((value /= 10));
    while (count) *at++ = digits[--count];
}

static void line(const long *fields) {
    for (int i = 0; i < 15; i++) number(fields[i]), *at++ = i < 14 ? ',' : '\n';
    if (at - text > (1 << 20) - 512) fwrite(text, 1, (size_t)(at - text), stdout), at = text;
    if (++written == lines) {
        fwrite(text, 1, (size_t)(at - text), stdout);
        exit(fflush(stdout) != 0);
    }
}

static int dense[256 * 2 * SEGMENTS]; // the vehicles in each stretch
static int *gone, *left_at, gone_first, gone_last, used, vehicles, expressways;

// A vehicle that is not on the road: a new one, or the one that left first and two minutes ago; -1 for none.
static int vehicle_at(int time) {
    if (used < vehicles) return (int)(((uint64_t)used++ * 1103515245u + 12345u) & 0x7fffffff);
    if (gone_first == gone_last || left_at[gone_first] + 120 > time) return -1;
    int vehicle = gone[gone_first];
    gone_first = (gone_first + 1) % vehicles;
    return vehicle;
}

static void leave(int vehicle, int time) {
    if (vehicle < 0) return;
    gone[gone_last] = vehicle, left_at[gone_last] = time;
    gone_last = (gone_last + 1) % vehicles;
}

static int smaller(int a, int b) { return a < b ? a : b; }

static int enter(Second *second, int time) {
    Trip trip = {.vehicle = vehicle_at(time), .twin = -1, .counted = -1};
    if (trip.vehicle < 0) return 0;
    int first = (below(SEGMENTS) + below(SEGMENTS)) / 2;
    int road = smaller(below(expressways), smaller(below(expressways), below(expressways)));
    trip.way = 2 * road + below(2);
    trip.place = first * FEET + below(FEET);
    trip.end = smaller(first + below(20), SEGMENTS - 1);
    trip.speed = 35 + below(50);
    if (below(1000) == 0) trip.twin = vehicle_at(time);
    if (second->count == second->room) {
        second->room = second->room ? 2 * second->room : 64;
        second->trips = realloc(second->trips, second->room * sizeof(Trip));
        if (!second->trips) exit(1);
    }
    second->trips[second->count++] = trip;
    return 1;
}

static void ask(const Trip *trip, int time) {
    static long asked;
    int draw = below(1000);
    if (draw >= 12) return;
    long fields[15] = {2, time, trip->vehicle, -1, -1, -1, -1, -1, -1, ++asked, -1, -1, -1, -1, -1};
    if (draw == 10) fields[0] = 3, fields[4] = trip->way / 2, fields[14] = 1 + below(69);
    if (draw == 11) fields[0] = 4, fields[10] = 10, fields[11] = 20, fields[12] = 3, fields[13] = 300;
    line(fields);
}

static void tell(const Trip *trip, int vehicle, int time, int speed, int lane) {
    int west = trip->way & 1, place = west ? SEGMENTS * FEET - 1 - trip->place : trip->place;
    long fields[15] = {0, time, vehicle, speed, trip->way / 2, lane, west, place / FEET, place, -1, -1, -1, -1, -1, -1};
    line(fields);
    ask(trip, time);
}

// Drives for 30 seconds and reports; 0 where it has left.
static int drive(Trip *trip, int time) {
    int speed = 0, lane = trip->reports ? 1 + trip->vehicle % 3 : 0, stays = 1;
    if (trip->twin >= 0 && trip->reports == 5) trip->stands = 4 + below(9);
    if (trip->stands) trip->stands--, lane = 2;
    else {
        int cars = trip->counted < 0 ? 0 : dense[trip->counted];
        speed = cars > 30 ? trip->speed * 30 / cars : trip->speed;
        speed = speed < 5 ? 5 : speed;
        if (trip->reports) trip->place += 44 * speed;
        if (trip->place / FEET > trip->end) trip->place = trip->end * FEET + FEET - 1, stays = 0, lane = 4;
    }
    if (trip->counted >= 0) dense[trip->counted]--;
    trip->counted = trip->way * SEGMENTS + trip->place / FEET;
    if (stays) dense[trip->counted]++;
    trip->reports++;
    tell(trip, trip->vehicle, time, speed, lane);
    if (trip->twin >= 0) tell(trip, trip->twin, time, speed, lane);
    if (!stays) leave(trip->vehicle, time), leave(trip->twin, time);
    return stays;
}

static long root(long square) {
    long r = 0;
    while ((r + 1) * (r + 1) <= square) r++;
    return r;
}

int main(int count, char **words) {
    if (count != 6) return 1;
    lines = atol(words[1]), vehicles = atoi(words[2]), expressways = atoi(words[3]);
    long end = 60 * atol(words[4]), peak = 3 * lines / (2 * end) + 1;
    state = strtoull(words[5], 0, 10) * 2 + 1;
    gone = malloc(sizeof(int) * (size_t)vehicles), left_at = malloc(sizeof(int) * (size_t)vehicles);
    if (lines < 1 || vehicles < 1 || expressways < 1 || expressways > 256 || end < 60 || end > 86400) return 1;
    if (!gone || !left_at) return 1;
    static Second seconds[SECONDS];
    for (int time = 0; time < end; time++) {
        Second *now = &seconds[time % SECONDS];
        size_t wanted = (size_t)(peak * root(10000 * (time + 1) / end) / 100 + 1), kept = 0;
        while (now->count < wanted && enter(now, time)) continue;
        for (size_t i = 0; i < now->count; i++) {
            Trip trip = now->trips[i];
            if (drive(&trip, time)) now->trips[kept++] = trip;
        }
        now->count = kept;
    }
    fwrite(text, 1, (size_t)(at - text), stdout);
    return fflush(stdout) != 0;
}
