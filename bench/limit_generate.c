/* What `pciex generate --seed SEED --lose COUNT --events COUNT` does, by hand (limit.h): limit_generate SEED COUNT COUNT. It
 * decides of each event whether the fabric takes it, without bytes of packets and of the memory.
 */
#define _GNU_SOURCE
#include "limit.h"
#include "fabric.h"

enum { REQUESTERS = 3 };

static uint64_t state;
static uint32_t lost, open_tags[8], packets[LANES], dllps[LANES]; /* lost: of 65536 */

static inline uint32_t word(void)
{
    uint64_t old = state;
    state = old * UINT64_C(6364136223846793005) + 1;
    uint32_t mixed = (uint32_t)((old >> 18 ^ old) >> 27), turns = (uint32_t)(old >> 59);
    return mixed >> turns | mixed << (-turns & 31);
}

#define BELOW(count) (word() % (count))
#define PORT (1 + BELOW(REQUESTERS))

/* What becomes of the packet or DLLP of this count. */
static inline int fate_of(uint32_t count)
{
    return (count * 40503 & 0xFFFF) < lost ? LOST : GOOD;
}

static inline unsigned lane_of(void)
{
    switch (BELOW(4)) {
    case 0: return UP + PORT;
    case 1: return DOWN + PORT;
    case 2: return INWARD;
    default: return OUTWARD;
    }
}

static inline uint32_t place_of(void)
{
    if (!BELOW(2))
        return 0;
    uint32_t most = BELOW(48) + 1;
    return BELOW(most);
}

/* An operation: its kind's name, its address, and what stands behind it. */
static struct {
    unsigned kind, dw, first, last, size;
    uint32_t address;
    unsigned char data[48];
} op;

static inline uint32_t address(void)
{
    static const uint16_t places[4] = { 0, 48, 1024, 4080 };
    return BELOW(32) ? places[BELOW(4)] : 8192;
}

static inline void operand(unsigned char *at, unsigned size)
{
    uint64_t low, high = 0;
    memset(at, 0, 16);
    if (!BELOW(2)) {
        low = BELOW(4);
    } else {
        low = word();
        if (size > 4)
            high = word();
    }
    low |= high << 32;
    memcpy(at, &low, 8);
}

static inline unsigned narrow(void)
{
    return BELOW(2) ? 8 : 4;
}

static void operation(void)
{
    op.kind = BELOW(5);
    if (op.kind < 2) {
        uint32_t most = BELOW(6) + 1;
        op.dw = BELOW(most) + 1;
        op.first = 15;
        op.last = op.dw > 1 ? 15 : 0;
        if (op.dw == 1 && !BELOW(4))
            op.first = BELOW(16);
        op.address = address();
        op.size = 4 * op.dw;
        if (op.kind == 1)
            for (unsigned byte = 0; byte < op.size; byte++)
                op.data[byte] = (unsigned char)word();
        return;
    }
    op.size = op.kind == 4 && !BELOW(3) ? 16 : narrow();
    op.address = address();
    operand(op.data, op.size);
    if (op.kind == 4)
        operand(op.data + op.size, op.size);
}

static inline void put_digits(const unsigned char *data, unsigned size)
{
    for (; size >= 8; size -= 8, data += 8)
        out_at = put_words(out_at, load8(data), 0);
    if (size)
        out_at = put_word(out_at, load4(data), 0);
}

static const char digits[16] = "0123456789ABCDEF";

static void put_submit(uint32_t port)
{
    static const char names[5][8] = { " read ", " write ", " add ", " swap ", " cas " };
    static const unsigned char sizes[5] = { 6, 7, 5, 6, 5 };
    PUT("submit ");
    *out_at++ = digits[port];
    memcpy(out_at, names[op.kind], 8);
    out_at += sizes[op.kind];
    switch (op.address) {
    case 0: PUT("0 "); break;
    case 48: PUT("30 "); break;
    case 1024: PUT("400 "); break;
    case 4080: PUT("FF0 "); break;
    default: PUT("2000 ");
    }
    if (op.kind < 2) {
        if (op.kind == 0) {
            *out_at++ = digits[op.dw];
            *out_at++ = ' ';
        }
        *out_at++ = digits[op.first];
        *out_at++ = ' ';
        *out_at++ = digits[op.last];
        if (op.kind == 1) {
            *out_at++ = ' ';
            put_digits(op.data, op.size);
        }
    } else {
        put_digits(op.data, op.size);
        if (op.kind == 4) {
            *out_at++ = ' ';
            put_digits(op.data + op.size, op.size);
        }
    }
    *out_at++ = '\n';
}

static inline int submit(uint32_t port)
{
    operation();
    struct item item = { .port = (unsigned char)port, .class = op.kind == 1 ? POSTED : NON_POSTED };
    unsigned bytes = op.kind == 0 ? 0 : op.kind == 4 ? 2 * op.size : op.size;
    item.units = (uint16_t)((bytes + 15) / 16);
    /* the units of its completion's data, which is none outside the memory and across a block */
    int has_data = op.address != 8192 && (op.address & 63 ? (op.address & 63) + op.size <= 64 : 1);
    item.id = has_data ? (op.size + 15) / 16 : 0;
    if ((op.kind != 1 && open_tags[port] == 256) || !can_enter(&lanes[UP + port], item.class, item.units))
        return 0;
    open_tags[port] += op.kind != 1;
    enter(&lanes[UP + port], item);
    put_submit(port);
    return 1;
}

static inline void put_name(unsigned lane)
{
    static const char names[LANES][8] = { " in", " up1", " up2", " up3", " up4", " up5", " up6", " up7",
        " out", " down1", " down2", " down3", " down4", " down5", " down6", " down7" };
    memcpy(out_at, names[lane], 8);
    out_at += lane == INWARD ? 3 : lane <= OUTWARD ? 4 : 6;
}

static inline void put_fate(int fate)
{
    if (fate == GOOD)
        PUT(" good\n");
    else
        PUT(" lost\n");
}

static inline void put_place(uint32_t place)
{
    *out_at++ = ' ';
    if (place >= 10)
        *out_at++ = digits[place / 10];
    *out_at++ = digits[place % 10];
    *out_at++ = '\n';
}

static int another(void)
{
    unsigned lane;
    uint32_t place, port, dllp, draw = BELOW(5);
    if (draw == 0) {
        lane = lane_of();
        int fate = fate_of(packets[lane] + 1);
        if (deliver(&lanes[lane], fate) == IDLE)
            return 0;
        packets[lane]++;
        PUT("deliver");
        put_name(lane);
        put_fate(fate);
        return 1;
    }
    if (draw == 1) {
        lane = lane_of();
        int fate = fate_of(dllps[lane] + 1);
        if (!deliver_dllp(&lanes[lane], fate, &dllp))
            return 0;
        dllps[lane]++;
        PUT("deliver-dllp");
        put_name(lane);
        put_fate(fate);
        return 1;
    }
    draw = BELOW(40);
    if (draw <= 5)
        return submit(PORT);
    if (draw <= 14) {
        lane = lane_of();
        if (!transmit(&lanes[lane]))
            return 0;
        PUT("transmit");
        put_name(lane);
        *out_at++ = '\n';
        return 1;
    }
    if (draw <= 20) {
        lane = lane_of();
        unsigned class = 3;
        if (BELOW(2))
            class = !BELOW(4) ? POSTED : lane < OUTWARD ? NON_POSTED : COMPLETION;
        send_dllp(&lanes[lane], class);
        PUT("dllp");
        put_name(lane);
        if (class == 3)
            PUT(" ack\n");
        else if (class == POSTED)
            PUT(" p\n");
        else if (class == NON_POSTED)
            PUT(" np\n");
        else
            PUT(" cpl\n");
        return 1;
    }
    if (draw <= 29) {
        lane = !BELOW(2) ? OUTWARD : UP + PORT;
        place = place_of();
        struct item *item = takeable(&lanes[lane], place);
        if (!item || !forward(&lanes[lane], item, &lanes[lane == OUTWARD ? DOWN + item->port : INWARD]))
            return 0;
        PUT("forward");
        put_name(lane);
        put_place(place);
        return 1;
    }
    if (draw <= 34) {
        place = place_of();
        struct item *item = takeable(&lanes[INWARD], place);
        if (!item)
            return 0;
        if (item->class == NON_POSTED) {
            struct item completion = { .class = COMPLETION, .units = (uint16_t)item->id, .port = item->port };
            if (!can_enter(&lanes[OUTWARD], COMPLETION, completion.units))
                return 0;
            enter(&lanes[OUTWARD], completion);
        }
        take(&lanes[INWARD], item);
        PUT("serve");
        put_place(place);
        return 1;
    }
    if (draw <= 38) {
        port = PORT;
        struct item *item = takeable(&lanes[DOWN + port], 0);
        if (!item)
            return 0;
        take(&lanes[DOWN + port], item);
        open_tags[port]--;
        PUT("collect ");
        *out_at++ = digits[port];
        *out_at++ = '\n';
        return 1;
    }
    lane = lane_of();
    if (!BELOW(8)) {
        if (!timer(&lanes[lane]))
            return 0;
        PUT("timer");
    } else {
        if (!lanes[lane].stopped)
            return 0;
        lanes[lane].stopped = 0;
        PUT("retrained");
    }
    put_name(lane);
    *out_at++ = '\n';
    return 1;
}

int main(int count, char **words)
{
    if (count != 4)
        unknown();
    state = strtoull(words[1], NULL, 10) + 1;
    word();
    uint32_t lose = (uint32_t)strtoull(words[2], NULL, 10);
    lost = lose ? 65536 / lose : 0;
    open_fabric();
    PUT("fabric 3 0 4096 16 64 16 16 16 64 block 64\n");
    for (uint64_t left = strtoull(words[3], NULL, 10); left; left--) {
        int tries = 256;
        room();
        while (!another())
            if (!--tries) {
                send_dllp(&lanes[INWARD], 3);
                PUT("dllp in ack\n");
                break;
            }
    }
    flush();
    return 0;
}
