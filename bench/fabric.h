/* The fabric of limit_step.c and limit_generate.c: what its events do with packets, sequence numbers and credits. A packet is
 * an item, which has no bytes; each end of a lane counts as the standard has it.
 */
enum { POSTED, NON_POSTED, COMPLETION };
enum { GOOD, FAILED, LOST };
enum { ACCEPT, DUPLICATE, NAK, QUIET, GONE, IDLE };
enum { INWARD = 0, UP = 0, OUTWARD = 8, DOWN = 8, LANES = 16, WIRE = 4096 };

struct item {
    uint32_t id;
    uint16_t units;
    unsigned char class, port;
};

struct lane {
    uint32_t oldest, next, sent; /* numbers of the sender, not modulo 4096 */
    uint32_t expected;
    uint32_t wire_front, wire_back, dllp_front, dllp_back, front, back;
    unsigned char replays, stopped, nak; /* 1: a Nak is due; 2: it was sent */
    unsigned char is_infinite; /* completions have infinite credits, as at each requester */
    struct {
        unsigned char headers, used;
        uint16_t units, used_units;
    } gate[3];
    struct {
        uint32_t headers, units;
    } given[3];
    struct item queue[256];
    uint16_t wire[WIRE];
    uint32_t dllps[WIRE];
    struct item kept[2048];
};

static struct lane lanes[LANES];

static void open_fabric(void)
{
    for (int place = 0; place < LANES; place++) {
        struct lane *lane = &lanes[place];
        for (int class = 0; class < 3; class++) {
            lane->gate[class].headers = 16;
            lane->gate[class].units = class == NON_POSTED ? 16 : 64;
            lane->given[class].headers = 16;
            lane->given[class].units = lane->gate[class].units;
        }
        lane->is_infinite = place > DOWN;
    }
}

static inline int can_enter(const struct lane *lane, unsigned class, unsigned units)
{
    unsigned char headers = (unsigned char)(lane->gate[class].headers - lane->gate[class].used);
    unsigned left = (lane->gate[class].units - lane->gate[class].used_units) & 0xFFF;
    return ((headers && left >= units) || (class == COMPLETION && lane->is_infinite)) && lane->next - lane->oldest < 2047;
}

static inline void enter(struct lane *lane, struct item item)
{
    lane->kept[lane->next++ % 2048] = item;
    lane->gate[item.class].used++;
    lane->gate[item.class].used_units += item.units;
}

/* Whether a packet goes onto the wire. */
static inline int transmit(struct lane *lane)
{
    if (lane->stopped || lane->sent == lane->next)
        return 0;
    lane->wire[lane->wire_back++ % WIRE] = lane->sent++ & 0xFFF;
    if (lane->wire_back - lane->wire_front > WIRE)
        unknown();
    return 1;
}

static inline int deliver(struct lane *lane, int fate)
{
    if (lane->wire_front == lane->wire_back)
        return IDLE;
    uint32_t number = lane->wire[lane->wire_front++ % WIRE];
    if (fate == LOST)
        return GONE;
    if (fate == GOOD) {
        uint32_t behind = (lane->expected - number) & 0xFFF;
        if (LIKELY(behind == 0)) {
            lane->expected++;
            lane->nak = 0;
            if (lane->back == 256) {
                memmove(lane->queue, lane->queue + lane->front, (lane->back - lane->front) * sizeof(struct item));
                lane->back -= lane->front;
                lane->front = 0;
            }
            lane->queue[lane->back++] = lane->kept[number % 2048];
            return ACCEPT;
        }
        if (behind <= 2048)
            return DUPLICATE;
    }
    if (lane->nak)
        return QUIET;
    lane->nak = 1;
    return NAK;
}

/* The DLLP that is sent: an answer for the class 3, or an update. */
static inline uint32_t send_dllp(struct lane *lane, unsigned class)
{
    uint32_t word;
    if (class == 3) {
        word = (lane->expected - 1) & 0xFFF;
        if (lane->nak == 1) {
            lane->nak = 2;
            word |= 1 << 28;
        }
    } else {
        word = (8 + class) << 28;
        if (class != COMPLETION || !lane->is_infinite)
            word |= (lane->given[class].headers & 0xFF) << 14 | (lane->given[class].units & 0xFFF);
    }
    lane->dllps[lane->dllp_back++ % WIRE] = word;
    if (lane->dllp_back - lane->dllp_front > WIRE)
        unknown();
    return word;
}

/* By how many packets the sender moves back. */
static inline uint32_t timer(struct lane *lane)
{
    uint32_t moved = lane->sent - lane->oldest;
    if (moved && lane->replays++ == 3) {
        lane->replays = 0;
        lane->stopped = 1;
    }
    lane->sent = lane->oldest;
    return moved;
}

/* Whether a DLLP arrives: it is put into `word`. */
static inline int deliver_dllp(struct lane *lane, int fate, uint32_t *word)
{
    if (lane->dllp_front == lane->dllp_back)
        return 0;
    uint32_t dllp = *word = lane->dllps[lane->dllp_front++ % WIRE];
    if (fate != GOOD)
        return 1;
    if (dllp >> 31) {
        unsigned class = dllp >> 28 & 3;
        lane->gate[class].headers = (unsigned char)(dllp >> 14);
        lane->gate[class].units = dllp & 0xFFF;
        return 1;
    }
    uint32_t count = (dllp - lane->oldest + 1) & 0xFFF;
    if (count > lane->next - lane->oldest)
        unknown();
    if (count) {
        uint32_t sent = lane->sent - lane->oldest;
        lane->oldest += count;
        lane->replays = 0;
        if (sent < count)
            lane->sent = lane->oldest;
    }
    if (dllp >> 28)
        timer(lane);
    return 1;
}

/* What a queue's place has, if it may be taken: nothing passes a posted request. */
static inline struct item *takeable(struct lane *lane, uint32_t place)
{
    struct item *item = &lane->queue[lane->front];
    if (place >= lane->back - lane->front)
        return NULL;
    for (; place; place--, item++)
        if (item->class == POSTED)
            return NULL;
    return item;
}

/* Takes an item out of the queue; its credits go back. */
static inline void take(struct lane *lane, struct item *item)
{
    struct item *front = &lane->queue[lane->front++];
    lane->given[item->class].headers++;
    lane->given[item->class].units += item->units;
    if (item != front)
        memmove(front + 1, front, (size_t)((unsigned char *)item - (unsigned char *)front));
    if (lane->front == lane->back)
        lane->front = lane->back = 0;
}

static inline int forward(struct lane *from, struct item *item, struct lane *to)
{
    if (!can_enter(to, item->class, item->units))
        return 0;
    enter(to, *item);
    take(from, item);
    return 1;
}
