/*
 * A root complex at the other end of an endpoint's link, apart from the library: it knows the data link layer by the
 * standard alone, and has a replay buffer, credits, Acks, Naks and CRCs of its own.
 *
 * The wires between the two lose packets and DLLPs, flip bits and stop for a while. The root complex adds 1 to one of
 * 64 counters, 10,000 times by FetchAdd, and writes to other places meanwhile: each completion must have the count so
 * far. At the end the memory must hold the counts and what was written last, read over the link and by
 * pciex_linked_bytes, and the endpoint's trace must be right, with each addition once. Prints the first thing that is wrong.
 *
 *     peer [ADDITIONS]
 *
 * Of fewer than 10,000 additions it doesn't want that all has happened that may happen on a link.
 */
#include "../pciex.h"
#include "crcs.h"

#include <stdio.h>
#include <stdlib.h>
#include <string.h>

#define SIZE 65536u
#define BASE 0xFEDC0000u
#define MANY 10000u
#define COUNTERS 64u
#define WRITTEN 32768u /* the written half of the memory begins here */

#define LATENCY 3u     /* ticks on the wire */
#define REPLAY_TIME 40u
#define REFRESH_TIME 25u

static uint64_t seed;
static unsigned now; /* ticks */
static unsigned long all_additions;

static uint32_t draw(uint32_t below)
{
    seed = seed * 6364136223846793005u + 1442695040888963407u;
    return (uint32_t)((seed >> 33) % below);
}

static void wants(bool is_right, const char *what)
{
    if (!is_right) {
        printf("tick %u: %s\n", now, what);
        exit(1);
    }
}

/* ---- two wires: what is on them keeps its order */

typedef struct item {
    uint8_t bytes[160];
    size_t length;
    bool is_dllp;
    unsigned arrives;
} item;

typedef struct wire {
    item items[256];
    unsigned first, count;
} wire;

static wire to_device, to_peer;
static unsigned stopped_until; /* until then all that arrives is lost */
static unsigned long lost, flipped, stops;

static void put(wire *w, const uint8_t *bytes, size_t length, bool is_dllp)
{
    wants(w->count < 256 && length <= 150, "too much on a wire");
    item *it = &w->items[(w->first + w->count++) % 256];
    memcpy(it->bytes, bytes, length);
    it->length = with_crc(it->bytes, length, is_dllp);
    it->is_dllp = is_dllp;
    it->arrives = now + LATENCY;
}

/* The next thing that arrives now, as the wire left it; none if nothing does. */
static item *arrived(wire *w)
{
    while (w->count > 0 && w->items[w->first].arrives <= now) {
        item *it = &w->items[w->first];
        w->first = (w->first + 1) % 256;
        w->count--;
        if (now < stopped_until || draw(20) == 0) {
            lost++;
            continue;
        }
        if (draw(20) == 0) { /* a burst of at most 16 bits, of which the first is wrong */
            const size_t bit = draw((uint32_t)(8 * it->length));
            const uint32_t burst = 1 | (draw(3) == 0 ? draw(65536) : 0);
            for (size_t i = 0; i < 16 && bit + i < 8 * it->length; i++) {
                it->bytes[(bit + i) / 8] ^= (uint8_t)((burst >> i & 1) << (bit + i) % 8);
            }
            flipped++;
        }
        return it;
    }
    return NULL;
}

/* ---- the device under its timers */

static pciex_linked device = PCIEX_NONE;
static pciex_credits credits;
static bool is_waiting_for_ack; /* of the device's packets */
static unsigned sent_by_device, acked_by_peer; /* sequence numbers */
static unsigned device_replays_at, device_refreshes_at;
static unsigned long replays_of_device, stopped_senders;
static unsigned long became[PCIEX_PACKET_DROPPED + 1]; /* of the packets that arrived at the device */

static uint32_t status(void)
{
    uint32_t state = 0;
    wants(pciex_linked_status(&device, &state) == 0, "no status");
    return state;
}

static void device_sends(void)
{
    for (unsigned i = 0; i < 3; i++) {
        uint8_t room[PCIEX_LINK_PACKET];
        bool is_dllp;
        const uint32_t length = pciex_linked_next(&device, room, sizeof room, &is_dllp);
        if (length == 0) {
            return;
        }
        wants(length <= sizeof room && (!is_dllp || length == 4), "another length");
        if (!is_dllp) {
            sent_by_device = room[0] * 256u + room[1];
            if (!is_waiting_for_ack) {
                is_waiting_for_ack = true;
                device_replays_at = now + REPLAY_TIME;
            }
        }
        put(&to_peer, room, length, is_dllp);
    }
}

static void device_receives(void)
{
    item *it;
    while ((it = arrived(&to_device)) != NULL) {
        size_t length;
        const bool good = is_good(it->bytes, it->length, it->is_dllp, &length);
        if (!it->is_dllp) {
            const uint32_t what = pciex_linked_packet(&device, it->bytes, length, good);
            wants(what == PCIEX_TLP_ACCEPTED || (what >= PCIEX_PACKET_DUPLICATE && what <= PCIEX_PACKET_QUIET),
                  "a packet is refused");
            became[what]++;
            continue;
        }
        const uint32_t code = pciex_linked_dllp(&device, it->bytes, length, good);
        wants(code <= PCIEX_DLLP_GONE, "a DLLP is refused");
        if (code == PCIEX_DLLP_TOOK && (it->bytes[0] == 0x00 || it->bytes[0] == 0x10)) {
            const unsigned number = it->bytes[2] % 16 * 256u + it->bytes[3];
            if (number != acked_by_peer) {
                acked_by_peer = number;
                device_replays_at = now + REPLAY_TIME;
            }
            is_waiting_for_ack = number != sent_by_device;
        }
    }
}

static void device_timers(void)
{
    if (now >= device_refreshes_at) {
        pciex_linked_refresh(&device);
        device_refreshes_at = now + REFRESH_TIME;
    }
    if (is_waiting_for_ack && now >= device_replays_at) {
        pciex_linked_replay(&device);
        replays_of_device++;
        device_replays_at = now + REPLAY_TIME;
    }
    if (status() == PCIEX_LINK_STOPPED) {
        stopped_senders++;
        pciex_linked_retrained(&device);
    }
}

/* ---- the peer's end of the link */

enum { POSTED, NON_POSTED, COMPLETION };
enum { INIT1, INIT2, ACTIVE };

/* What the peer advertises: completions are counted. */
static const unsigned first_headers[3] = {4, 4, 5}, first_units[3] = {16, 4, 20};

typedef struct kept {
    uint8_t bytes[152];
    size_t length;
} kept;

static int state;
static bool heard[3]; /* the device's InitFCs */
static unsigned header_limit[3], unit_limit[3], headers_used[3], units_used[3];
static kept buffer[64]; /* by sequence number modulo 64 */
static unsigned oldest, next_number, next_to_send, replays_at;
static unsigned next_wanted; /* NEXT_RCV_SEQ */
static bool ack_is_due, nak_is_due, nak_is_scheduled, update_is_due;
static unsigned headers_freed, units_freed, headers_received, units_received;
static unsigned refreshes_at, inits_at;
static unsigned long sent_by_peer, accepted_by_peer, replays_of_peer, naks_of_device, duplicates;
static kept accepted[4096]; /* by sequence number: what was accepted last under it */

static void dllp(unsigned type, unsigned b1, unsigned b2, unsigned b3)
{
    const uint8_t bytes[4] = {(uint8_t)type, (uint8_t)b1, (uint8_t)b2, (uint8_t)b3};
    put(&to_device, bytes, 4, true);
}

static void flow_control(unsigned type, int class, unsigned headers, unsigned units)
{
    headers &= 255;
    units &= 4095;
    dllp(type + 16u * (unsigned)class, headers >> 2, (headers & 3) << 6 | units >> 8, units);
}

static unsigned distance(unsigned from, unsigned to, unsigned modulus)
{
    return (to + modulus - from) % modulus;
}

/* Class and data units of a TLP, by its Fmt, Type and Length. */
static int class_of(const uint8_t *tlp)
{
    const unsigned type = tlp[0] % 32;
    return type == 10 ? COMPLETION : type == 0 && (tlp[0] & 0x40) ? POSTED : NON_POSTED;
}

static unsigned units_of(const uint8_t *tlp)
{
    return tlp[0] & 0x40 ? (tlp[2] % 4 * 256u + tlp[3] + 3) / 4 : 0;
}

/* Whether the device's credits and the replay buffer have space for a TLP. */
static bool has_space(const uint8_t *tlp)
{
    const int class = class_of(tlp);
    return distance(oldest, next_number, 4096) < 60 && distance(headers_used[class], header_limit[class], 256) >= 1 &&
           distance(units_used[class], unit_limit[class], 4096) >= units_of(tlp);
}

static void enter(const uint8_t *tlp, size_t length)
{
    kept *k = &buffer[next_number % 64];
    const int class = class_of(tlp);
    k->bytes[0] = (uint8_t)(next_number >> 8);
    k->bytes[1] = (uint8_t)next_number;
    memcpy(k->bytes + 2, tlp, length);
    k->length = length + 2;
    headers_used[class] = (headers_used[class] + 1) % 256;
    units_used[class] = (units_used[class] + units_of(tlp)) % 4096;
    next_number = (next_number + 1) % 4096;
    sent_by_peer++;
}

/* REPLAY_TIMER or a Nak: from the oldest. */
static void replay(void)
{
    next_to_send = oldest;
    replays_at = now + REPLAY_TIME;
    replays_of_peer++;
}

static void peer_receives_dllp(const uint8_t *d)
{
    const unsigned number = d[2] % 16 * 256u + d[3];
    if (d[0] == 0x00 || d[0] == 0x10) {
        const unsigned behind = distance(oldest, (number + 1) % 4096, 4096);
        wants(behind <= distance(oldest, next_number, 4096), "an Ack or a Nak of a packet that isn't outstanding");
        if (behind > 0) {
            if (distance(oldest, next_to_send, 4096) < behind) {
                next_to_send = (number + 1) % 4096;
            }
            oldest = (number + 1) % 4096;
            replays_at = now + REPLAY_TIME;
        }
        if (d[0] == 0x10) {
            naks_of_device++;
            replay();
        }
        return;
    }
    const unsigned class = (d[0] >> 4) & 3, headers = d[1] * 4u + (d[2] >> 6), kind = d[0] & 0xC0;
    wants((d[0] & 15) == 0 && class < 3 && kind != 0, "a DLLP of another type");
    if (kind == 0x80) {
        if (state == INIT1) {
            return;
        }
        wants(class != COMPLETION, "an update of infinite credits");
        wants(distance(headers_used[class], headers, 256) <= (class == POSTED ? credits.ph : credits.nph) &&
                  distance(units_used[class], number, 4096) <= (class == POSTED ? credits.pd : credits.npd),
              "more credits than were advertised");
        header_limit[class] = headers;
        unit_limit[class] = number;
        state = ACTIVE;
        return;
    }
    if (state == INIT1) {
        const unsigned wanted_headers[3] = {credits.ph, credits.nph, 0}, wanted_units[3] = {credits.pd, credits.npd, 0};
        wants(headers == wanted_headers[class] && number == wanted_units[class], "an InitFC of other credits");
        heard[class] = true;
        header_limit[class] = headers;
        unit_limit[class] = number;
        if (heard[0] && heard[1] && heard[2]) {
            state = INIT2;
            inits_at = now;
        }
    } else if (state == INIT2 && kind == 0xC0) {
        state = ACTIVE;
    }
}

static void completion_arrives(const uint8_t *tlp, size_t length);

static void peer_receives_packet(const uint8_t *bytes, size_t length, bool good)
{
    const unsigned number = length < 2 ? 0 : bytes[0] % 16 * 256u + bytes[1];
    if (state == INIT1) {
        return;
    }
    if (good && distance(number, next_wanted, 4096) - 1 < 2047) {
        wants(length == accepted[number].length && memcmp(bytes, accepted[number].bytes, length) == 0,
              "a replayed packet isn't the one that was accepted");
        duplicates++;
        ack_is_due = true;
        return;
    }
    if (!good || number != next_wanted) {
        if (!nak_is_scheduled) {
            nak_is_scheduled = nak_is_due = true;
        }
        return;
    }
    state = ACTIVE;
    nak_is_scheduled = nak_is_due = false;
    ack_is_due = true;
    next_wanted = (next_wanted + 1) % 4096;
    accepted_by_peer++;
    memcpy(accepted[number].bytes, bytes, length);
    accepted[number].length = length;
    wants(class_of(bytes + 2) == COMPLETION, "the device sends a request");
    headers_received++;
    units_received += units_of(bytes + 2);
    wants(headers_received <= first_headers[COMPLETION] + headers_freed &&
              units_received <= first_units[COMPLETION] + units_freed,
          "the device sends more than the peer's credits");
    completion_arrives(bytes + 2, length - 2);
    headers_freed++;
    units_freed += units_of(bytes + 2);
    update_is_due = true;
}

static void peer_receives(void)
{
    item *it;
    while ((it = arrived(&to_peer)) != NULL) {
        size_t length;
        const bool good = is_good(it->bytes, it->length, it->is_dllp, &length);
        if (!it->is_dllp) {
            peer_receives_packet(it->bytes, length, good);
        } else if (good) {
            peer_receives_dllp(it->bytes);
        }
    }
}

static void peer_sends(void)
{
    if (state != ACTIVE) {
        if (now >= inits_at) {
            for (int class = 0; class < 3; class++) {
                flow_control(state == INIT1 ? 0x40 : 0xC0, class, first_headers[class], first_units[class]);
            }
            inits_at = now + REFRESH_TIME;
        }
        return;
    }
    if (nak_is_due || ack_is_due) {
        const unsigned number = (next_wanted + 4095) % 4096;
        dllp(nak_is_due ? 0x10 : 0x00, 0, number >> 8, number & 255);
        nak_is_due = ack_is_due = false;
    }
    if (update_is_due) {
        flow_control(0x80, COMPLETION, first_headers[COMPLETION] + headers_freed, first_units[COMPLETION] + units_freed);
        update_is_due = false;
    }
    if (next_to_send != next_number) {
        const kept *k = &buffer[next_to_send % 64];
        if (next_to_send == oldest) {
            replays_at = now + REPLAY_TIME;
        }
        put(&to_device, k->bytes, k->length, false);
        next_to_send = (next_to_send + 1) % 4096;
    }
}

static void peer_timers(void)
{
    if (state != ACTIVE) {
        return;
    }
    if (now >= refreshes_at) {
        ack_is_due = update_is_due = true;
        refreshes_at = now + REFRESH_TIME;
    }
    if (oldest != next_number && now >= replays_at) {
        replay();
    }
}

/* ---- the root complex: what it asks, and what it has to be answered */

typedef struct wanted {
    uint8_t tag, bytes[128];
    unsigned count, byte_count; /* 0 bytes: a completion without data */
} wanted;

static wanted waiting[1024]; /* the completions that are to come, in order */
static unsigned first_waiting, waiting_count;
static uint8_t memory[SIZE];
static unsigned long additions;
static unsigned set_up, read_bytes; /* how far the root complex has come */
static uint8_t last_tag;

static void expect(const uint8_t *bytes, unsigned count, unsigned byte_count)
{
    wants(waiting_count < 1024, "too many requests");
    wanted *w = &waiting[(first_waiting + waiting_count++) % 1024];
    w->tag = last_tag;
    w->count = count;
    w->byte_count = byte_count;
    if (count > 0) {
        memcpy(w->bytes, bytes, count);
    }
}

static void completion_arrives(const uint8_t *tlp, size_t length)
{
    wants(waiting_count > 0, "a completion that nobody asked for");
    const wanted *w = &waiting[first_waiting];
    first_waiting = (first_waiting + 1) % 1024;
    waiting_count--;
    wants(length == 12 + w->count && tlp[0] == (w->count > 0 ? 0x4A : 0x0A) && tlp[10] == w->tag, "another completion");
    wants(tlp[6] == (w->byte_count >> 8 & 15) && tlp[7] == (uint8_t)w->byte_count, "another status or Byte Count");
    wants(w->count == 0 || memcmp(tlp + 12, w->bytes, w->count) == 0, "other data");
}

/* A request's header of 3 DW, with the next tag. Returns its length. */
static size_t header(uint8_t *tlp, uint8_t kind, unsigned dw, uint8_t enables, uint32_t address)
{
    const uint8_t bytes[12] = {
        kind,
        0,
        (uint8_t)(dw >> 8 & 3),
        (uint8_t)dw,
        0,
        8,
        (uint8_t)(last_tag + 1),
        enables,
        (uint8_t)(address >> 24),
        (uint8_t)(address >> 16),
        (uint8_t)(address >> 8),
        (uint8_t)address,
    };
    memcpy(tlp, bytes, sizeof bytes);
    return sizeof bytes;
}

static bool enters(uint8_t *tlp, size_t length)
{
    if (!has_space(tlp)) {
        return false;
    }
    last_tag = tlp[6];
    enter(tlp, length);
    return true;
}

static bool configure(unsigned reg, uint8_t enables, uint32_t value)
{
    uint8_t tlp[16];
    size_t length = header(tlp, 0x44, 1, enables, 1u << 24 | reg);
    for (unsigned i = 0; i < 4; i++) {
        tlp[length++] = (uint8_t)(value >> 8 * i);
    }
    if (!enters(tlp, length)) {
        return false;
    }
    expect(NULL, 0, 4);
    return true;
}

static bool add(void)
{
    const unsigned place = 4 * draw(COUNTERS);
    uint8_t tlp[16] = {0};
    const size_t length = header(tlp, 0x4C, 1, 0, BASE + place);
    tlp[length] = 1;
    if (!enters(tlp, length + 4)) {
        return false;
    }
    expect(memory + place, 4, 4);
    for (unsigned i = 0; i < 4 && ++memory[place + i] == 0; i++) {
    }
    additions++;
    return true;
}

/* A write of 1 to 32 DW, maybe across a block, inside 4096 bytes. */
static bool write_some(void)
{
    const unsigned dw = 1 + draw(32), place = WRITTEN + 4096 * draw(7) + 4 * draw(1024 - dw);
    uint8_t tlp[140];
    size_t length = header(tlp, 0x40, dw, dw == 1 ? 0x0F : 0xFF, BASE + place);
    for (unsigned i = 0; i < 4 * dw; i++) {
        tlp[length++] = (uint8_t)draw(256);
    }
    if (!enters(tlp, length)) {
        return false;
    }
    memcpy(memory + place, tlp + 12, 4 * dw);
    return true;
}

/* A read of so many bytes, which is completed block by block. */
static bool read_all(unsigned place, unsigned count)
{
    uint8_t tlp[12];
    const size_t length = header(tlp, 0x00, count / 4, 0xFF, BASE + place);
    if (!enters(tlp, length)) {
        return false;
    }
    for (unsigned done = 0; done < count; done += 128) {
        expect(memory + place + done, 128, count - done);
    }
    return true;
}

/* What is asked next; whether all was asked. */
static bool asks(void)
{
    switch (set_up) {
        case 0:
            set_up += configure(0x10, 0x0F, BASE);
            return false;
        case 1:
            set_up += configure(0x14, 0x0F, 0);
            return false;
        case 2:
            set_up += configure(0x04, 0x01, 2);
            return false;
    }
    if (additions < all_additions) {
        draw(6) == 0 ? write_some() : add();
        return false;
    }
    if (read_bytes < SIZE && waiting_count < 500 && read_all(read_bytes, 4096)) {
        read_bytes += 4096;
    }
    return read_bytes == SIZE;
}

static void begin(pciex_credits given)
{
    credits = given;
    memset(memory, 0, sizeof memory);
    memset(heard, 0, sizeof heard);
    memset(headers_used, 0, sizeof headers_used);
    memset(units_used, 0, sizeof units_used);
    to_device.count = to_peer.count = 0;
    now = stopped_until = 0;
    lost = flipped = stops = 0;
    is_waiting_for_ack = false;
    sent_by_device = acked_by_peer = 4095;
    device_replays_at = device_refreshes_at = 0;
    replays_of_device = stopped_senders = 0;
    memset(became, 0, sizeof became);
    state = INIT1;
    oldest = next_number = next_to_send = replays_at = next_wanted = 0;
    ack_is_due = nak_is_due = nak_is_scheduled = update_is_due = false;
    headers_freed = units_freed = headers_received = units_received = 0;
    refreshes_at = inits_at = 0;
    sent_by_peer = accepted_by_peer = replays_of_peer = naks_of_device = duplicates = 0;
    first_waiting = waiting_count = 0;
    additions = set_up = read_bytes = 0;
    wants(pciex_linked_new(SIZE, 0x1234, 0x7C1E, &credits, true, &device) == 0, "no device");
    wants(pciex_linked_up(&device) == 0, "no link");
}

/*
 * The history explains the trace. Of each counter it has as many additions as the root complex entered, and as many were
 * submitted; each of them and each block that was read is answered.
 */
static void check_trace(void)
{
    unsigned submitted[COUNTERS] = {0}, acted[COUNTERS] = {0}, answers = 0;
    uint8_t verdict[PCIEX_LINE];
    size_t length = 0;
    wants(pciex_linked_trace(&device, verdict, sizeof verdict, &length) == PCIEX_SMALL_ROOM, "a trace fits a line");
    char *text = malloc(length + 1);
    wants(text && pciex_linked_trace(&device, (uint8_t *)text, length, &length) == 0, "no trace");
    wants(pciex_check_clocked((const uint8_t *)text, length, verdict, sizeof verdict) == 0, "another history");
    text[length] = 0;
    for (char *line = strtok(text, "\n"); line; line = strtok(NULL, "\n")) {
        unsigned place = 4 * COUNTERS, one = 0;
        if (sscanf(line, "sub 1 %*u %*u add %x %x", &place, &one) == 2 && place < 4 * COUNTERS) {
            submitted[place / 4] += one == 0x01000000;
        } else if (sscanf(line, "ent 1 %*u add %x %x", &place, &one) == 2 && place < 4 * COUNTERS) {
            acted[place / 4] += one == 0x01000000;
        }
        answers += strncmp(line, "ans ", 4) == 0;
    }
    for (unsigned i = 0; i < COUNTERS; i++) {
        const unsigned count = memory[4 * i] + 256u * memory[4 * i + 1];
        wants(submitted[i] == count && acted[i] == count, "an addition isn't in the trace once");
    }
    wants(answers == all_additions + SIZE / 128, "another number of answers in the trace");
    free(text);
}

/* Numbers wrapped twice, and each thing that the wires and the timers bring about came about. */
static void all_happened(void)
{
    wants(sent_by_peer > 2 * 4096 && accepted_by_peer > 2 * 4096, "the numbers didn't wrap twice");
    wants(lost > 100 && flipped > 100 && stops > 3, "the wires were too good");
    wants(replays_of_peer > 0 && replays_of_device > 0 && naks_of_device > 0, "nothing was replayed");
    wants(duplicates > 0 && became[PCIEX_PACKET_DUPLICATE] > 0, "nothing came twice");
    wants(became[PCIEX_PACKET_NAK] > 0 && became[PCIEX_PACKET_QUIET] > 0, "nothing was out of order");
    wants(stopped_senders > 0, "no sender was stopped");
}

static void session(pciex_credits given)
{
    static uint8_t bytes[SIZE];
    bool is_asked = false;
    begin(given);
    while (!is_asked || waiting_count > 0) {
        now++;
        wants(now < 3000000, "it takes too long");
        if (draw(3000) == 0 && now >= stopped_until) {
            stopped_until = now + 100 + draw(400);
            stops++;
        }
        if (state == ACTIVE && !is_asked) {
            is_asked = asks();
        }
        peer_sends();
        device_sends();
        device_receives();
        peer_receives();
        peer_timers();
        device_timers();
    }
    wants(pciex_linked_bytes(&device, bytes, sizeof bytes) == 0 && memcmp(bytes, memory, SIZE) == 0, "another memory");
    unsigned long sum = 0;
    for (unsigned i = 0; i < COUNTERS; i++) {
        sum += bytes[4 * i] + 256u * bytes[4 * i + 1];
    }
    wants(sum == all_additions, "an addition is lost, or counts twice");
    check_trace();
    wants(became[PCIEX_TLP_ACCEPTED] == sent_by_peer, "a packet is accepted twice, or never");
    if (all_additions >= MANY) {
        all_happened();
    }
    printf("%lu additions, each counts once; credits %u, %u, %u, %u\n", sum, given.ph, given.pd, given.nph, given.npd);
    pciex_linked_free(&device);
}

int main(int count, char **words)
{
    all_additions = count > 1 ? strtoul(words[1], NULL, 10) : MANY;
    const pciex_credits usual = {16, 64, 16, 16}, least = {1, 8, 1, 2};
    seed = 1;
    session(usual);
    session(least);
    return 0;
}
