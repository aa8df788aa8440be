/* The device of limit_endpoint.c and limit_linked.c: a memory of 4096 bytes behind BAR 0, its Command register, and the
 * requests that wait.
 */
enum { NONE, READ, ADD, SWAP, COMPARE, CONFIG };

struct request {
    uint32_t address, length, enables, id; /* bytes; for CONFIG the register; Requester ID and tag */
    uint32_t operand[4];
    unsigned char kind, first;
};

static unsigned char memory[4096];
static uint32_t base = ~0u, command, device;
static struct request waiting[256];
static unsigned char oldest, newest; /* modulo 256 */

/* What becomes of a TLP, whose words are as they stand in memory: 1 if it waits, 0 if it acted. */
static inline int comes(const uint32_t *words, unsigned count)
{
    uint32_t first = BIG(words[0]), length = first & 0x3FF, kind = first >> 24;
    uint32_t enables = words[1] >> 24, address = BIG(words[2]);
    if (first & 0x00FFFC00 || count < 3)
        unknown();
    if (kind == 0x44) {
        if (length != 1 || count != 4 || enables > 0x0F || !(enables & 1))
            unknown();
        device = words[2] & 0xFFFF;
        if ((address & 0xFFFF) == 0x10 && enables == 0x0F)
            base = words[3] & ~0xFFFu;
        else if ((address & 0xFFFF) == 4)
            command = words[3] & 2;
        else
            unknown();
        struct request *new = &waiting[newest++];
        new->kind = CONFIG;
        new->id = words[1] & 0xFFFFFF;
        if (newest == oldest)
            unknown();
        return 1;
    }
    /* in the BAR, no page crossed, aligned to words, and enables of all bytes */
    uint32_t bytes = length ? 4 * length : 4096, at = address - base;
    if (!command || at >= 4096 || address & 3)
        unknown();
    if (kind == 0x40 || kind == 0x00) {
        if (enables != (length == 1 ? 0x0F : 0xFF) || at + bytes > 4096)
            unknown();
        if (kind == 0x40) {
            if (count != 3 + length)
                unknown();
            if (length == 1)
                memcpy(memory + at, words + 3, 4);
            else
                memcpy(memory + at, words + 3, bytes);
            return 0;
        }
        if (count != 3)
            unknown();
        struct request *new = &waiting[newest++];
        new->kind = READ;
        new->address = at;
        new->length = bytes;
        new->id = words[1] & 0xFFFFFF;
    } else {
        unsigned operands = kind == 0x4E ? 2 : 1, size = bytes / operands;
        if (kind < 0x4C || kind > 0x4E || count != 3 + length || enables || (size != 4 && size != 8) || at & (size - 1))
            unknown();
        struct request *new = &waiting[newest++];
        new->kind = (unsigned char)(ADD + kind - 0x4C);
        new->address = at;
        new->length = size;
        new->id = words[1] & 0xFFFFFF;
        memcpy(new->operand, words + 3, 16);
    }
    if (newest == oldest)
        unknown();
    return 1;
}

/* The completion of the oldest request, which acts, as words that stand as in memory: how many. */
static inline unsigned acts(uint32_t *words)
{
    struct request *request = &waiting[oldest];
    words[1] = device;
    words[2] = request->id;
    if (LIKELY(request->kind == READ)) {
        uint32_t address = request->address, left = request->length;
        uint32_t now = 128 - (address & 127) < left ? 128 - (address & 127) : left;
        words[0] = BIG(0x4A000000 | now / 4);
        words[1] |= BIG(left & 0xFFF);
        words[2] |= address << 24 & 0x7F000000;
        request->address = address + now;
        request->length = left - now;
        oldest += left == now;
        if (now == 128) {
            memcpy(words + 3, memory + address, 128);
            return 35;
        }
        for (uint32_t at = 0; at < now; at += 4)
            memcpy(words + 3 + at / 4, memory + address + at, 4);
        return 3 + now / 4;
    }
    oldest++;
    if (request->kind == CONFIG) {
        words[0] = BIG(0x0A000000);
        words[1] |= BIG(4);
        return 3;
    }
    unsigned char *place = memory + request->address;
    uint32_t size = request->length;
    words[0] = BIG(0x4A000000 | size / 4);
    words[1] |= BIG(size);
    if (size == 4) {
        uint32_t old = load4(place), operand = request->operand[0], new = operand;
        if (request->kind == ADD)
            new = old + operand;
        else if (request->kind == COMPARE)
            new = old == operand ? request->operand[1] : old;
        memcpy(place, &new, 4);
        words[3] = old;
        return 4;
    }
    uint64_t old = load8(place), operand = load8((unsigned char *)request->operand), new = operand;
    if (request->kind == ADD)
        new = old + operand;
    else if (request->kind == COMPARE)
        new = old == operand ? load8((unsigned char *)(request->operand + 2)) : old;
    memcpy(place, &new, 8);
    memcpy(words + 3, &old, 8);
    return 5;
}

/* Reads the words of a TLP, each behind a space: where they end. */
static inline const unsigned char *words_of(const unsigned char *at, uint32_t *words, unsigned *count)
{
    unsigned read = 0;
    while (*at == ' ' && read < 35) {
        int is_pair = at[9] == ' ' && at[10] < 'g';
        uint64_t two = words_at(at + 1, at + (is_pair ? 10 : 1));
        memcpy(words + read, &two, 8);
        read += 1 + is_pair;
        at += is_pair ? 18 : 9;
        if (*at == ' ' && at[1] >= 'g')
            break;
    }
    *count = read;
    return at;
}

/* Puts words, each behind a space. */
static inline unsigned char *put_all(unsigned char *at, const uint32_t *words, unsigned count)
{
    for (; count >= 2; count -= 2, words += 2) {
        *at = ' ';
        at = put_words(at + 1, load8((const unsigned char *)words), 1) - 1;
    }
    if (count) {
        *at = ' ';
        at = put_word(at + 1, *words, 0);
    }
    return at;
}
