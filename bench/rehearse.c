// Plain C rehearsal of the scanner head election: a schedule on standard input, its listings on standard output.
#include <stdbool.h>
#include <stdint.h>
#include <stdio.h>
#include <string.h>

enum { STATIONS = 8, PLACES = 16, MAX_RANK = 7, MAX_INCARNATION = 4095, MAX_TICK = 1000000, MAX_SCHEDULE = 65536 };
enum { SET_UP = 1, START, CRASH, LINK, RUN, LOSE, REPORT, RANK, SET_UP_CLOCKS };

static const uint8_t operands[] = { // bytes after each command
    [SET_UP] = 2, [START] = 1, [CRASH] = 1, [LINK] = 3, [RUN] = 2, [LOSE] = 2, [REPORT] = 0, [RANK] = 2,
    [SET_UP_CLOCKS] = 2,
};

// Stations are numbered from 1; place 0 of each array by station is unused.
struct station {
    uint32_t incarnation;                 // kept through a crash; clock heads: 0
    uint32_t stable;                      // the kept leader; clock heads: itself
    uint32_t sent;                        // survives crashes too
    bool up;
    bool recovering;                      // until the first slot after a start
    uint32_t leader;                      // 0 if down, or if a clock head trusts nobody
    uint32_t timer;                       // tick at which it ends, 0 if stopped
    uint32_t slot;                        // tick of the next send chance
    union {
        uint32_t timeout[STATIONS + 1];
        struct {                          // clock heads
            uint32_t clock_timeout;       // one for all others
            uint32_t lowest;              // the lowest stamp known
        };
    };
    union {                               // what LEADER carries
        uint16_t recovered[STATIONS + 1]; // known start counts
        uint32_t stamp;                   // clock heads: what the clock read at the start
    };
};

struct message {
    uint32_t due;
    union {
        uint16_t recovered[STATIONS + 1];
        uint32_t stamp;
    };
};

// Messages under way stand first, oldest sending first.
struct link {
    uint32_t delay; // 0 is a cut link
    uint32_t count;
    struct message message[PLACES];
};

static bool ready;  // set up is done
static bool clocks; // the heads have a running clock and no flash
static uint32_t stations, period, tick;
static struct station station[STATIONS + 1];
static uint32_t order[STATIONS + 1]; // of candidates with equal counts: rank, then number; below 256
static struct link links[STATIONS + 1][STATIONS + 1]; // by sender, then receiver
static bool busy[STATIONS + 1]; // whether a station may have messages under way
static uint8_t schedule[MAX_SCHEDULE + 1];
static char output[65536];

// Rules of flash heads.

static void start(uint32_t p) {
    struct station *s = &station[p];
    s->up = true;
    s->recovering = true;
    s->incarnation++;
    s->leader = s->stable;
    for (uint32_t q = 1; q <= stations; q++) {
        s->timeout[q] = q == p ? 0 : period + s->incarnation;
        s->recovered[q] = 0;
    }
    s->recovered[p] = (uint16_t)s->incarnation;
    s->timer = s->leader == p ? 0 : tick + s->timeout[s->leader];
    s->slot = tick + period + s->incarnation;
}

// Candidates compare by known count, then rank, then number: all three as one number.
static uint32_t key(const struct station *s, uint32_t p) {
    return (uint32_t)s->recovered[p] << 8 | order[p];
}

static bool before(const struct station *s, uint32_t a, uint32_t b) {
    return key(s, a) < key(s, b);
}

static void hear(uint32_t p, uint32_t q, const uint16_t *recovered) {
    struct station *s = &station[p];
    for (uint32_t r = 1; r <= stations; r++)
        if (s->recovered[r] < recovered[r])
            s->recovered[r] = recovered[r];
    if (!before(s, s->leader, q)) {
        s->leader = q;
        s->timer = tick + s->timeout[q];
    }
    if (before(s, p, s->leader)) {
        s->leader = p;
        s->timer = 0;
    }
}

static void timer_ends(uint32_t p) {
    struct station *s = &station[p];
    s->timeout[s->leader]++;
    s->leader = p;
    s->timer = 0;
}

static void wait_ends(uint32_t p) {
    station[p].stable = station[p].leader;
}

// Rules of clock heads.

static void clock_start(uint32_t p) {
    struct station *s = &station[p];
    uint32_t clock = period + tick;
    s->up = true;
    s->recovering = true;
    s->leader = 0;
    s->clock_timeout = clock;
    s->stamp = clock;
    s->lowest = clock;
    s->slot = tick + clock;
}

static void clock_hear(uint32_t p, uint32_t q, uint32_t stamp) {
    struct station *s = &station[p];
    bool wins_tie = s->leader == 0 ? q < p : q <= s->leader;
    if (stamp < s->lowest || (stamp == s->lowest && wins_tie)) {
        s->leader = q;
        s->lowest = stamp;
        s->timer = tick + s->clock_timeout;
    }
}

static void clock_timer_ends(uint32_t p) {
    struct station *s = &station[p];
    s->clock_timeout++;
    s->leader = p;
    s->lowest = s->stamp;
    s->timer = 0;
}

static void clock_wait_ends(uint32_t p) {
    struct station *s = &station[p];
    if (s->leader == 0)
        s->leader = p;
    else if (s->leader != p)
        s->timer = tick + s->clock_timeout;
}

// Rules of both.

static void crash(uint32_t p) {
    struct station *s = &station[p];
    *s = (struct station){ .incarnation = s->incarnation, .stable = s->stable, .sent = s->sent };
}

// Answers whether the station sends.
static bool send_chance(uint32_t p) {
    struct station *s = &station[p];
    if (s->recovering) {
        if (clocks)
            clock_wait_ends(p);
        else
            wait_ends(p);
    }
    s->recovering = false;
    s->slot += period;
    return s->leader == p;
}

// The desk.

static void set_rank(uint32_t p, uint32_t rank) {
    order[p] = rank * (STATIONS + 1) + p;
}

static void set_up(bool clock_heads, uint32_t n, uint32_t eta) {
    ready = true;
    clocks = clock_heads;
    stations = n;
    period = eta;
    for (uint32_t p = 1; p <= n; p++) {
        station[p].stable = p;
        set_rank(p, 0);
        for (uint32_t q = 1; q <= n; q++)
            links[p][q].delay = p == q ? 0 : 1;
    }
}

// The next tick at which something is due, found while a tick is done.
static uint32_t next_due;

static void due_at(uint32_t due) {
    if (due < next_due)
        next_due = due;
}

// Delivers the messages due now from q to p; the others close up in order. Answers whether any are left.
static bool deliver(uint32_t q, uint32_t p) {
    struct link *l = &links[q][p];
    uint32_t left = 0;
    for (uint32_t i = 0; i < l->count; i++) {
        if (l->message[i].due != tick) {
            due_at(l->message[i].due);
            if (left != i)
                l->message[left] = l->message[i];
            left++;
        } else if (station[p].up) {
            if (clocks)
                clock_hear(p, q, l->message[i].stamp);
            else
                hear(p, q, l->message[i].recovered);
        }
    }
    l->count = left;
    return left != 0;
}

static void send_leader(uint32_t p) {
    for (uint32_t q = 1; q <= stations; q++) {
        struct link *l = &links[p][q];
        if (q == p || l->delay == 0)
            continue;
        struct message *m = &l->message[l->count++];
        m->due = tick + l->delay;
        memcpy(m->recovered, station[p].recovered, sizeof m->recovered); // or the stamp that stands there
        due_at(m->due);
    }
    station[p].sent += stations - 1;
    busy[p] = true;
}

// What is due at this tick, in the order of the rules: each station hears its senders in ascending order.
static void do_tick(void) {
    for (uint32_t q = 1; q <= stations; q++) {
        if (!busy[q])
            continue;
        busy[q] = false;
        for (uint32_t p = 1; p <= stations; p++)
            if (links[q][p].count != 0 && deliver(q, p))
                busy[q] = true;
    }
    for (uint32_t p = 1; p <= stations; p++) {
        const struct station *s = &station[p];
        if (s->timer == tick) {
            if (clocks)
                clock_timer_ends(p);
            else
                timer_ends(p);
        }
        if (s->slot == tick && send_chance(p))
            send_leader(p);
        if (s->up)
            due_at(s->slot);
        if (s->timer != 0)
            due_at(s->timer);
    }
}

// Up to this tick nothing is due; a start sets it back.
static uint32_t quiet;

// Ticks at which nothing is due are passed over, also from one run to the next.
static void run(uint32_t ticks) {
    uint32_t end = tick + ticks;
    if (end <= quiet)
        tick = end;
    while (tick < end) {
        tick++;
        next_due = MAX_TICK + 1;
        do_tick();
        quiet = next_due - 1;
        tick = quiet < end ? quiet : end;
    }
}

// The listing.

static char *put_text(char *at, const char *text) {
    size_t length = strlen(text);
    memcpy(at, text, length);
    return at + length;
}

static char *put_number(char *at, uint32_t number) {
    char digits[10];
    int n = 0;
    do {
        digits[n++] = (char)('0' + number % 10);
        number /= 10;
    } while (number != 0);
    while (n > 0)
        *at++ = digits[--n];
    return at;
}

static char *put_station(char *at, uint32_t p) {
    const struct station *s = &station[p];
    at = put_number(at, p);
    if (s->up)
        at = put_number(put_text(at, " up leader "), s->leader);
    else
        at = put_text(at, " down leader -");
    at = put_number(put_text(at, " inc "), s->incarnation);
    at = put_text(at, " rec ");
    if (s->up) {
        at = put_number(at, s->recovered[1]);
        for (uint32_t q = 2; q <= stations; q++) {
            *at++ = ',';
            at = put_number(at, s->recovered[q]);
        }
    } else {
        *at++ = '-';
    }
    at = put_number(put_text(at, " sent "), s->sent);
    at = put_number(put_text(at, " kept "), s->stable);
    *at++ = '\n';
    return at;
}

// A number, or a dash for 0.
static char *put_known(char *at, uint32_t number) {
    return number != 0 ? put_number(at, number) : put_text(at, "-");
}

static char *put_clock_station(char *at, uint32_t p) {
    const struct station *s = &station[p];
    at = put_number(at, p);
    at = put_text(at, s->up ? " up leader " : " down leader ");
    at = put_known(at, s->leader);
    at = put_known(put_text(at, " inc - stamp "), s->stamp);
    at = put_number(put_text(at, " sent "), s->sent);
    return put_text(at, " kept -\n");
}

enum finding { DARK, AGREED, AGREED_DARK, SPLIT };

struct search {
    enum finding finding;
    uint32_t leader; // the one agreed on, else 0
    uint32_t ended;  // the station where the search ended; no listing shows it
};

// Ends at the first up station that trusts nobody, or another than the up stations before it, else at the last station.
static struct search search_agreement(void) {
    uint32_t leader = 0;
    for (uint32_t p = 1; p <= stations; p++) {
        if (!station[p].up)
            continue;
        if (station[p].leader == 0 || (leader != 0 && leader != station[p].leader))
            return (struct search){ SPLIT, 0, p };
        leader = station[p].leader;
    }
    if (leader == 0)
        return (struct search){ DARK, 0, stations };
    return (struct search){ station[leader].up ? AGREED : AGREED_DARK, leader, stations };
}

static void report(void) {
    char listing[1024]; // the longest takes less
    char *at = put_number(put_text(listing, "tick "), tick);
    *at++ = '\n';
    if (clocks)
        for (uint32_t p = 1; p <= stations; p++)
            at = put_clock_station(at, p);
    else
        for (uint32_t p = 1; p <= stations; p++)
            at = put_station(at, p);
    struct search found = search_agreement();
    switch (found.finding) {
    case DARK:
        at = put_text(at, "dark");
        break;
    case AGREED:
        at = put_number(put_text(at, "agreed "), found.leader);
        break;
    case AGREED_DARK:
        at = put_number(put_text(at, "agreed dark "), found.leader);
        break;
    case SPLIT:
        at = put_text(at, "split");
        break;
    }
    *at++ = '\n';
    fwrite(listing, 1, (size_t)(at - listing), stdout);
}

// Commands and schedules.

static bool is_station(uint32_t p) {
    return 1 <= p && p <= stations;
}

static bool any_started(void) {
    for (uint32_t p = 1; p <= stations; p++)
        if (station[p].incarnation != 0)
            return true;
    return false;
}

// Does the first command of the bytes; answers 0, or the refusal with nothing changed.
static int do_command(const uint8_t *bytes, size_t length) {
    uint8_t command = bytes[0];
    if (command < SET_UP || command > SET_UP_CLOCKS) return 1;
    if (length < 1u + operands[command]) return 2;
    if (!ready && command != SET_UP && command != SET_UP_CLOCKS) return 3;
    const uint8_t *operand = bytes + 1;
    switch (command) {
    case SET_UP:
    case SET_UP_CLOCKS:
        if (ready) return 4;
        if (operand[0] < 2 || operand[0] > STATIONS) return 5;
        if (operand[1] < 16) return 6;
        set_up(command == SET_UP_CLOCKS, operand[0], operand[1]);
        break;
    case START:
        if (!is_station(operand[0])) return 7;
        if (station[operand[0]].up) return 8;
        if (station[operand[0]].incarnation == MAX_INCARNATION) return 10;
        if (clocks)
            clock_start(operand[0]);
        else
            start(operand[0]);
        quiet = 0;
        break;
    case CRASH:
        if (!is_station(operand[0])) return 7;
        if (!station[operand[0]].up) return 9;
        crash(operand[0]);
        break;
    case LINK:
    case LOSE:
        if (!is_station(operand[0]) || !is_station(operand[1])) return 7;
        if (operand[0] == operand[1]) return 11;
        if (command == LINK)
            links[operand[0]][operand[1]].delay = operand[2];
        else
            links[operand[0]][operand[1]].count = 0;
        break;
    case RUN: {
        uint32_t ticks = operand[0] + 256u * operand[1];
        if (ticks == 0) return 13;
        if (tick + ticks > MAX_TICK) return 14;
        run(ticks);
        break;
    }
    case REPORT:
        report();
        break;
    case RANK:
        if (clocks) return 25;
        if (!is_station(operand[0])) return 7;
        if (operand[1] > MAX_RANK) return 22;
        if (any_started()) return 23;
        set_rank(operand[0], operand[1]);
        break;
    }
    return 0;
}

int main(void) {
    setvbuf(stdin, NULL, _IONBF, 0); // so that no more is read than asked for
    setvbuf(stdout, output, _IOFBF, sizeof output);
    size_t length = fread(schedule, 1, sizeof schedule, stdin), at = 0;
    if (ferror(stdin)) {
        perror("standard input");
        return 1;
    }
    int refusal = length > MAX_SCHEDULE ? 21 : 0;
    while (refusal == 0 && at < length) {
        refusal = do_command(schedule + at, length - at);
        if (refusal == 0)
            at += 1u + operands[schedule[at]];
    }
    if (refusal == 0)
        printf("end %zu\n", at);
    else
        printf("refused %d at %zu\n", refusal, at);
    if (fflush(stdout) != 0 || ferror(stdout)) {
        perror("standard output");
        return 1;
    }
    return 0;
}
