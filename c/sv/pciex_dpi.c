/*
 * The functions of c/pciex.h for SystemVerilog, as pciex_pkg.sv imports them. For C99 and C++, with svdpi.h of the
 * simulator. They are called one at a time, so there is one text for all.
 */
#include "../pciex_differ.h"

#include "dpi_files.h"
#include "dpi_said.h"

#ifdef __cplusplus
extern "C" {
#endif

const char *pciex_dpi_said(void)
{
    return large ? large : said;
}

/* ---- a memory without a history */

void *pciex_dpi_memory_new(uint64_t base, uint32_t size, uint32_t block)
{
    if (block != 64 && block != 128) {
        return made(NULL, "a block has 64 or 128 bytes");
    }
    if (size == 0 || size > 1048576) {
        return made(NULL, "a memory has 1 to 1048576 bytes");
    }
    if (size - 1 > UINT64_MAX - base) {
        return made(NULL, "a memory has its bytes below 2^64");
    }
    memory *made_memory = (memory *)malloc(sizeof *made_memory);
    uint8_t *bytes = (uint8_t *)calloc(size, 1);
    if (!made_memory || !bytes) {
        free(made_memory);
        free(bytes);
        return made(NULL, "memory");
    }
    made_memory->bytes = bytes;
    made_memory->size = size;
    made_memory->base = base;
    made_memory->block = (uint16_t)block;
    return made(made_memory, NULL);
}

void pciex_dpi_memory_free(void *handle)
{
    if (handle) {
        free(((memory *)handle)->bytes);
        free(handle);
    }
}

/* The byte of the memory at an address, NULL outside. */
static uint8_t *byte_at(void *handle, uint64_t address)
{
    const memory *held = (const memory *)handle;
    return address < held->base || address - held->base >= held->size ? NULL : held->bytes + (address - held->base);
}

int pciex_dpi_memory_get(void *handle, uint64_t address)
{
    const uint8_t *byte = handle ? byte_at(handle, address) : NULL;
    return plain(!handle ? PCIEX_NULL : byte ? 0 : PCIEX_NO_ENTRY, byte ? *byte : 0);
}

int pciex_dpi_memory_set(void *handle, uint64_t address, unsigned char value)
{
    uint8_t *byte = handle ? byte_at(handle, address) : NULL;
    if (byte) {
        *byte = value;
    }
    return plain(!handle ? PCIEX_NULL : byte ? 0 : PCIEX_NO_ENTRY, 0);
}

int pciex_dpi_answer(void *handle, const svBitVecVal *request, int request_length, svBitVecVal *completion)
{
    uint8_t packet[MOST], room[PCIEX_PACKET];
    const memory *held = (const memory *)handle;
    if (!held || !unpack(request, request_length, packet)) {
        return packed(held ? PCIEX_SMALL_ROOM : PCIEX_NULL, room, completion);
    }
    const uint32_t code = pciex_answer(held->bytes, held->size, held->base, held->block, packet,
                                       (size_t)request_length, room, sizeof room);
    return packed(code, room, completion);
}

const char *pciex_dpi_differ(const svBitVecVal *request, const svBitVecVal *expected, int expected_length,
                             const svBitVecVal *got, int got_length)
{
    uint8_t of_request[MOST], of_expected[MOST], of_got[MOST];
    unpack(request, 0, of_request);
    const bool is_expected = unpack(expected, expected_length, of_expected);
    if (!unpack(got, got_length, of_got)) {
        return "not a completion";
    }
    const char *field = pciex_differ(of_request, of_expected, is_expected ? (uint32_t)expected_length : 1000, of_got,
                                     (size_t)got_length);
    return field ? field : "";
}

/* ---- a device with a history */

void *pciex_dpi_device_new(uint64_t base, uint32_t size, uint32_t block)
{
    pciex_device *device = (pciex_device *)calloc(1, sizeof *device);
    const uint16_t narrow = block > 65535 ? 0 : (uint16_t)block;
    const uint32_t code = device ? pciex_device_new(base, size, narrow, device) : PCIEX_NO_MEMORY;
    if (code != 0) {
        free(device);
        say_why(code);
        return NULL;
    }
    return made(device, NULL);
}

void pciex_dpi_device_free(void *handle)
{
    pciex_device_free((pciex_device *)handle);
    free(handle);
}

int pciex_dpi_device_serve(void *handle, uint32_t number, const svBitVecVal *request, int request_length,
                           svBitVecVal *completion)
{
    uint8_t packet[MOST], room[PCIEX_PACKET];
    if (!handle || !unpack(request, request_length, packet)) {
        return packed(handle ? PCIEX_SMALL_ROOM : PCIEX_NULL, room, completion);
    }
    const uint32_t code = pciex_device_serve((pciex_device *)handle, number, packet, (size_t)request_length, room,
                                             sizeof room);
    return packed(code, room, completion);
}

int pciex_dpi_device_history_length(void *handle)
{
    size_t count = 0;
    const uint32_t code = pciex_device_history_length((pciex_device *)handle, &count);
    return plain(code, (int)count);
}

int pciex_dpi_device_entry(void *handle, int place)
{
    uint8_t room[PCIEX_LINE];
    const size_t wide = place < 0 ? SIZE_MAX : (size_t)place;
    return told(pciex_device_entry((pciex_device *)handle, wide, room, sizeof room), room);
}

/* The result of a copy into a memory. */
static int copied(uint32_t code)
{
    const int result = plain(code, 0);
    if (code == PCIEX_SMALL_ROOM) {
        say_line("the memory has fewer bytes");
    }
    return result;
}

int pciex_dpi_device_bytes(void *handle, void *to)
{
    memory *held = (memory *)to;
    return copied(held ? pciex_device_bytes((pciex_device *)handle, held->bytes, held->size) : PCIEX_NULL);
}

/* ---- a fabric */

void *pciex_dpi_fabric_new(const char *line, int is_traced)
{
    uint8_t room[PCIEX_LINE];
    pciex_fabric *fabric = (pciex_fabric *)calloc(1, sizeof *fabric);
    const uint32_t code = fabric ? pciex_fabric_new((const uint8_t *)line, strlen(line), is_traced != 0, room,
                                                    sizeof room, fabric)
                                 : PCIEX_NO_MEMORY;
    if (code == 0) {
        return made(fabric, NULL);
    }
    free(fabric);
    told(code, room);
    return NULL;
}

void pciex_dpi_fabric_free(void *handle)
{
    pciex_fabric_free((pciex_fabric *)handle);
    free(handle);
}

int pciex_dpi_fabric_event(void *handle, const char *line)
{
    uint8_t room[PCIEX_LINE];
    const uint32_t code =
        pciex_fabric_event((pciex_fabric *)handle, (const uint8_t *)line, strlen(line), room, sizeof room);
    return told(code, room);
}

/* The results of the last script. */
static char *results;

int pciex_dpi_fabric_script(void *handle, const char *script, const char **told_results, int *done)
{
    const size_t script_length = strlen(script);
    size_t space = 0, used = 0, from = 0;
    uint32_t code;
    *told_results = "";
    *done = 0;
    do {
        const size_t more = space + 16 * PCIEX_LINE;
        char *grown = (char *)realloc(results, more + 1);
        if (!grown) {
            code = PCIEX_NO_MEMORY;
            break;
        }
        size_t lines = 0, length = 0;
        results = grown;
        space = more;
        code = pciex_fabric_script((pciex_fabric *)handle, (const uint8_t *)script + from, script_length - from,
                                   (uint8_t *)results + used, space - used, &lines, &length);
        from += lines;
        used += length;
    } while (code == PCIEX_SMALL_ROOM);
    const int result = code == 0 ? plain(0, 0) : told(code, (const uint8_t *)(results ? results + used : ""));
    if (results) {
        results[used] = 0;
        *told_results = results;
    }
    *done = (int)from;
    return result;
}

/* Calls that put a text of any length into a buffer. */
typedef uint32_t text_call(void *handle, uint8_t *room, size_t room_length, size_t *length);

static uint32_t fabric_settled(void *handle, uint8_t *room, size_t room_length, size_t *length)
{
    return pciex_fabric_settled((pciex_fabric *)handle, room, room_length, length);
}

static uint32_t fabric_trace(void *handle, uint8_t *room, size_t room_length, size_t *length)
{
    return pciex_fabric_trace((pciex_fabric *)handle, room, room_length, length);
}

static uint32_t endpoint_trace(void *handle, uint8_t *room, size_t room_length, size_t *length)
{
    return pciex_endpoint_trace((pciex_endpoint *)handle, room, room_length, length);
}

static uint32_t linked_trace(void *handle, uint8_t *room, size_t room_length, size_t *length)
{
    return pciex_linked_trace((pciex_linked *)handle, room, room_length, length);
}

/* The result of such a call. */
static int said_of(text_call *call, void *handle)
{
    uint8_t small[1];
    size_t length = 0;
    uint32_t code = call(handle, small, sizeof small, &length);
    if (code != PCIEX_SMALL_ROOM) {
        return plain(code, 0);
    }
    char *text = (char *)malloc(length + 1);
    code = text ? call(handle, (uint8_t *)text, length, &length) : PCIEX_NO_MEMORY;
    if (code != 0) {
        free(text);
        return plain(code, 0);
    }
    text[length] = 0;
    say_large(text);
    return (int)length;
}

int pciex_dpi_fabric_settled(void *handle)
{
    return said_of(fabric_settled, handle);
}

int pciex_dpi_fabric_settle(void *handle)
{
    const uint32_t code = pciex_fabric_settle((pciex_fabric *)handle);
    return code == 0 ? pciex_dpi_fabric_settled(handle) : plain(code, 0);
}

int pciex_dpi_fabric_trace(void *handle)
{
    return said_of(fabric_trace, handle);
}

int pciex_dpi_fabric_quiet(void *handle)
{
    bool quiet = false;
    const uint32_t code = pciex_fabric_quiet((pciex_fabric *)handle, &quiet);
    return plain(code, quiet);
}

int pciex_dpi_fabric_history_length(void *handle)
{
    size_t count = 0;
    const uint32_t code = pciex_fabric_history_length((pciex_fabric *)handle, &count);
    return plain(code, (int)count);
}

int pciex_dpi_fabric_bytes(void *handle, void *to)
{
    memory *held = (memory *)to;
    return copied(held ? pciex_fabric_bytes((pciex_fabric *)handle, held->bytes, held->size) : PCIEX_NULL);
}

/* ---- a monitor of ports */

void *pciex_dpi_monitor_new(const char *line)
{
    uint8_t room[PCIEX_LINE];
    lines *made_lines = (lines *)calloc(1, sizeof *made_lines);
    const uint32_t code = made_lines ? pciex_monitor_new((const uint8_t *)line, strlen(line), room, sizeof room,
                                                         &made_lines->monitor)
                                     : PCIEX_NO_MEMORY;
    if (code < 1000) {
        say(room, code);
        memcpy(made_lines->head, said, sizeof said);
        made_lines->is_trace = line[0] == 't';
        return made_lines;
    }
    free(made_lines);
    say_why(code);
    return NULL;
}

int pciex_dpi_monitor_to_file(void *handle, const char *name)
{
    lines *it = (lines *)handle;
    if (!it || it->file) {
        return plain(it ? PCIEX_HELD : PCIEX_NULL, 0);
    }
    FILE *file = fopen(name, "w"), *history = it->is_trace ? tmpfile() : NULL;
    if (!file || (it->is_trace && !history)) {
        const int result = no_file(file ? "a temporary file" : name);
        if (file) {
            fclose(file);
        }
        return result;
    }
    it->file = file;
    it->history = history;
    fprintf(file, "%s\n", it->head);
    return plain(0, 0);
}

int pciex_dpi_monitor_end_file(void *handle)
{
    lines *it = (lines *)handle;
    if (!it || !it->file) {
        return plain(it ? PCIEX_EMPTY : PCIEX_NULL, 0);
    }
    const bool is_written = ended(it);
    say_line(is_written ? "" : "not all lines can be written");
    return is_written ? 0 : -PCIEX_NO_FILE;
}

void pciex_dpi_monitor_free(void *handle)
{
    lines *it = (lines *)handle;
    if (it) {
        if (it->file) {
            ended(it);
        }
        pciex_monitor_free(&it->monitor);
        free(it);
    }
}

/* Every number outside 0 to 255 is told as 0, which no requester has. */
static uint8_t requester_of(int number)
{
    return number < 0 || number > 255 ? 0 : (uint8_t)number;
}

/* The result of a monitor's call, with its line in the buffer if it is done, which goes to the file. */
static int lined(uint32_t code, const uint8_t *room, FILE *file)
{
    if (code >= 1000) {
        say_why(code);
        return -(int)code;
    }
    if (file) {
        fwrite(room, 1, code, file);
        putc('\n', file);
    }
    return told(code, room);
}

int pciex_dpi_monitor_request(void *handle, int requester, const svBitVecVal *request, int request_length,
                              uint32_t *number)
{
    uint8_t packet[MOST], room[PCIEX_LINE];
    lines *it = (lines *)handle;
    unsigned of_requester, of_request;
    *number = 0;
    if (!it || !unpack(request, request_length, packet)) {
        return plain(it ? PCIEX_SMALL_ROOM : PCIEX_NULL, 0);
    }
    const int result = lined(pciex_monitor_request(&it->monitor, requester_of(requester), packet,
                                                   (size_t)request_length, room, sizeof room),
                             room, it->file);
    if (result >= 0 && sscanf(said, "sub %u %u", &of_requester, &of_request) == 2) {
        *number = of_request;
    }
    return result;
}

int pciex_dpi_monitor_completion(void *handle, int requester, const svBitVecVal *completion, int completion_length)
{
    uint8_t packet[MOST], room[PCIEX_LINE];
    lines *it = (lines *)handle;
    if (!it || !unpack(completion, completion_length, packet)) {
        return plain(it ? PCIEX_SMALL_ROOM : PCIEX_NULL, 0);
    }
    return lined(pciex_monitor_completion(&it->monitor, requester_of(requester), packet, (size_t)completion_length,
                                          room, sizeof room),
                 room, it->file);
}

int pciex_dpi_monitor_give_up(void *handle, int requester, unsigned char tag)
{
    lines *it = (lines *)handle;
    return plain(it ? pciex_monitor_give_up(&it->monitor, requester_of(requester), tag) : PCIEX_NULL, 0);
}

int pciex_dpi_monitor_acted(void *handle, int requester, uint32_t number)
{
    uint8_t room[PCIEX_LINE];
    lines *it = (lines *)handle;
    if (!it) {
        return plain(PCIEX_NULL, 0);
    }
    return lined(pciex_monitor_acted(&it->monitor, requester_of(requester), number, room, sizeof room), room,
                 it->history);
}

int pciex_dpi_monitor_open(void *handle)
{
    size_t count = 0;
    lines *it = (lines *)handle;
    const uint32_t code = it ? pciex_monitor_open(&it->monitor, &count) : PCIEX_NULL;
    return plain(code, (int)count);
}

/* ---- an endpoint */

void *pciex_dpi_endpoint_new(uint32_t size, uint16_t vendor, uint16_t device, int is_traced)
{
    pciex_endpoint *endpoint = (pciex_endpoint *)calloc(1, sizeof *endpoint);
    const uint32_t code = endpoint ? pciex_endpoint_new(size, vendor, device, is_traced != 0, endpoint)
                                   : PCIEX_NO_MEMORY;
    if (code == 0) {
        return made(endpoint, NULL);
    }
    free(endpoint);
    say_why(code);
    return code == PCIEX_WRONG_SIZE ? made(NULL, "4096 to 1048576 bytes, a power of two") : NULL;
}

void pciex_dpi_endpoint_free(void *handle)
{
    pciex_endpoint_free((pciex_endpoint *)handle);
    free(handle);
}

int pciex_dpi_endpoint_tlp(void *handle, const svBitVecVal *tlp, int tlp_length)
{
    uint8_t packet[MOST];
    if (!handle || !unpack(tlp, tlp_length, packet)) {
        return plain(handle ? PCIEX_SMALL_ROOM : PCIEX_NULL, 0);
    }
    const uint32_t code = pciex_endpoint_tlp((pciex_endpoint *)handle, packet, (size_t)tlp_length);
    return code <= PCIEX_TLP_MALFORMED ? plain(0, (int)code) : plain(code, 0);
}

int pciex_dpi_endpoint_next(void *handle, svBitVecVal *completion)
{
    uint8_t room[PCIEX_PACKET];
    return packed(pciex_endpoint_next((pciex_endpoint *)handle, room, sizeof room), room, completion);
}

int pciex_dpi_endpoint_reset(void *handle)
{
    return plain(pciex_endpoint_reset((pciex_endpoint *)handle), 0);
}

int pciex_dpi_endpoint_bytes(void *handle, void *to)
{
    memory *held = (memory *)to;
    return copied(held ? pciex_endpoint_bytes((pciex_endpoint *)handle, held->bytes, held->size) : PCIEX_NULL);
}

int pciex_dpi_endpoint_trace(void *handle)
{
    return said_of(endpoint_trace, handle);
}

/* ---- an endpoint behind its end of a link */

void *pciex_dpi_linked_new(uint32_t size, uint16_t vendor, uint16_t device, unsigned char ph, uint16_t pd,
                           unsigned char nph, uint16_t npd, int is_traced)
{
    const pciex_credits credits = {ph, pd, nph, npd};
    pciex_linked *linked = (pciex_linked *)calloc(1, sizeof *linked);
    const uint32_t code = linked ? pciex_linked_new(size, vendor, device, &credits, is_traced != 0, linked)
                                 : PCIEX_NO_MEMORY;
    if (code == 0) {
        return made(linked, NULL);
    }
    free(linked);
    say_why(code);
    return code == PCIEX_WRONG_SIZE ? made(NULL, "4096 to 1048576 bytes, a power of two") : NULL;
}

void pciex_dpi_linked_free(void *handle)
{
    pciex_linked_free((pciex_linked *)handle);
    free(handle);
}

int pciex_dpi_linked_packet(void *handle, const svBitVecVal *packet, int packet_length, int good)
{
    uint8_t bytes[MOST];
    if (!handle || !unpack(packet, packet_length, bytes)) {
        return plain(handle ? PCIEX_SMALL_ROOM : PCIEX_NULL, 0);
    }
    const uint32_t code = pciex_linked_packet((pciex_linked *)handle, bytes, (size_t)packet_length, good != 0);
    return code <= PCIEX_PACKET_DROPPED ? plain(0, (int)code) : plain(code, 0);
}

int pciex_dpi_linked_dllp(void *handle, uint32_t dllp, int good)
{
    static const char *const refused[] = {"Short", "", "Scaled", "NotOutstanding", "CreditLimit"};
    const uint8_t bytes[4] = {(uint8_t)(dllp >> 24), (uint8_t)(dllp >> 16), (uint8_t)(dllp >> 8), (uint8_t)dllp};
    const uint32_t code = pciex_linked_dllp((pciex_linked *)handle, bytes, sizeof bytes, good != 0);
    if (code >= PCIEX_DLLP_SHORT && code <= PCIEX_DLLP_CREDIT_LIMIT) {
        say_line(refused[code - PCIEX_DLLP_SHORT]);
        return -(int)code;
    }
    return code <= PCIEX_DLLP_GONE ? plain(0, (int)code) : plain(code, 0);
}

int pciex_dpi_linked_next(void *handle, svBitVecVal *sent, int *is_dllp)
{
    uint8_t room[PCIEX_LINK_PACKET];
    bool is_one = false;
    const uint32_t code = pciex_linked_next((pciex_linked *)handle, room, sizeof room, &is_one);
    *is_dllp = is_one;
    return packed(code, room, sent);
}

int pciex_dpi_linked_status(void *handle)
{
    uint32_t status = 0;
    const uint32_t code = pciex_linked_status((pciex_linked *)handle, &status);
    return plain(code, (int)status);
}

int pciex_dpi_linked_up(void *handle)
{
    return plain(pciex_linked_up((pciex_linked *)handle), 0);
}

int pciex_dpi_linked_down(void *handle)
{
    return plain(pciex_linked_down((pciex_linked *)handle), 0);
}

int pciex_dpi_linked_refresh(void *handle)
{
    return plain(pciex_linked_refresh((pciex_linked *)handle), 0);
}

int pciex_dpi_linked_replay(void *handle)
{
    return plain(pciex_linked_replay((pciex_linked *)handle), 0);
}

int pciex_dpi_linked_retrained(void *handle)
{
    return plain(pciex_linked_retrained((pciex_linked *)handle), 0);
}

int pciex_dpi_linked_bytes(void *handle, void *to)
{
    memory *held = (memory *)to;
    return copied(held ? pciex_linked_bytes((pciex_linked *)handle, held->bytes, held->size) : PCIEX_NULL);
}

int pciex_dpi_linked_trace(void *handle)
{
    return said_of(linked_trace, handle);
}

/* ---- the checker, packets in words, and names */

int pciex_dpi_check(const char *text)
{
    uint8_t room[PCIEX_LINE];
    const int code = told(pciex_check((const uint8_t *)text, strlen(text), room, sizeof room), room);
    note_where(text, code == 0 ? "" : said);
    if (code == 0) {
        say_line("ok");
    }
    return code;
}

const char *pciex_dpi_where(void)
{
    return where;
}

/* The reasons of the last search. */
static char reasons[16 * PCIEX_LINE + 1];

int pciex_dpi_search_with_reasons(const char *text, uint64_t limit, uint32_t granularity, const char **why)
{
    const size_t text_length = strlen(text);
    size_t length = 4 * text_length + PCIEX_LINE, space, reasons_length = 0;
    char *room = NULL;
    uint32_t code;
    reasons[0] = 0;
    *why = reasons;
    do {
        free(room);
        space = length;
        room = (char *)malloc(space + 1);
        code = room ? pciex_search_with_reasons((const uint8_t *)text, text_length, limit, granularity, (uint8_t *)room,
                                                space, &length, (uint8_t *)reasons, sizeof reasons - 1, &reasons_length)
                    : PCIEX_NO_MEMORY;
    } while (code == PCIEX_SMALL_ROOM && length > space);
    if (code >= 1000) {
        free(room);
        return plain(code, 0);
    }
    reasons[reasons_length < sizeof reasons ? reasons_length : sizeof reasons - 1] = 0;
    /* A trace has lines; a verdict of one line loses its line feed. */
    length -= code != PCIEX_FOUND && length > 0 && room[length - 1] == '\n';
    room[length] = 0;
    say_large(room);
    return (int)code;
}

int pciex_dpi_search(const char *text, uint64_t limit)
{
    const char *why;
    return pciex_dpi_search_with_reasons(text, limit, PCIEX_WHOLE, &why);
}

int pciex_dpi_check_file(const char *name)
{
    char *text = text_of(name);
    const int code = text ? pciex_dpi_check(text) : -PCIEX_NO_FILE;
    free(text);
    return code;
}

int pciex_dpi_search_file_with_reasons(const char *name, uint64_t limit, uint32_t granularity, const char **why)
{
    char *text = text_of(name);
    *why = "";
    const int code = text ? pciex_dpi_search_with_reasons(text, limit, granularity, why) : -PCIEX_NO_FILE;
    free(text);
    return code;
}

int pciex_dpi_search_file(const char *name, uint64_t limit)
{
    const char *why;
    return pciex_dpi_search_file_with_reasons(name, limit, PCIEX_WHOLE, &why);
}

/* Puts the lowest bits of a value, the next 8, 16, 32 or 64 of a vector from its lowest on. */
static void put(svBitVecVal *to, unsigned *at, uint64_t value, unsigned bits)
{
    for (unsigned i = 0; i < bits; i += 8, *at += 8) {
        to[*at / 32] |= (svBitVecVal)(value >> i & 0xFF) << *at % 32;
    }
}

int pciex_dpi_decode_tlp(const svBitVecVal *packet, int packet_length, svBitVecVal *fields)
{
    uint8_t bytes[MOST];
    pciex_tlp tlp;
    unsigned at = 0;
    memset(fields, 0, 8 * sizeof *fields);
    const uint32_t code =
        unpack(packet, packet_length, bytes) ? pciex_decode_tlp(bytes, (size_t)packet_length, &tlp) : PCIEX_SMALL_ROOM;
    if (code != 0) {
        return plain(code, 0);
    }
    const uint8_t last_bytes[] = {tlp.lower, tlp.status, tlp.last, tlp.first, tlp.tag, tlp.attr, tlp.tc, tlp.kind};
    const uint16_t halves[] = {tlp.byte_count, tlp.completer, tlp.requester, tlp.length};
    for (unsigned i = 0; i < sizeof last_bytes; i++) {
        put(fields, &at, last_bytes[i], 8);
    }
    for (unsigned i = 0; i < sizeof halves / sizeof *halves; i++) {
        put(fields, &at, halves[i], 16);
    }
    put(fields, &at, tlp.payload_length, 32);
    put(fields, &at, tlp.payload_start, 32);
    put(fields, &at, tlp.address, 64);
    return plain(0, 0);
}

int pciex_dpi_decode(const svBitVecVal *packet, int packet_length)
{
    uint8_t bytes[MOST], room[PCIEX_LINE];
    if (!unpack(packet, packet_length, bytes)) {
        return told(PCIEX_SMALL_ROOM, room);
    }
    return told(pciex_decode(bytes, (size_t)packet_length, room, sizeof room), room);
}

int pciex_dpi_encode(const char *line, svBitVecVal *packet)
{
    uint8_t room[PCIEX_LINE];
    const uint32_t code = pciex_encode((const uint8_t *)line, strlen(line), room, sizeof room);
    if (code < 1000) {
        return packed(code, room, packet);
    }
    packed(0, room, packet);
    return told(code, room);
}

const char *pciex_dpi_fault_name(int number)
{
    uint8_t room[PCIEX_LINE];
    const int code = told(pciex_fault_name((uint32_t)number, room, sizeof room), room);
    return code < 0 ? "" : said;
}

const char *pciex_dpi_version(void)
{
    uint8_t room[PCIEX_LINE];
    told(pciex_version(room, sizeof room), room);
    return said;
}

/* ---- the CRCs of a link */

uint32_t pciex_dpi_lcrc(const svBitVecVal *packet, int packet_length)
{
    uint8_t bytes[MOST], field[4];
    if (!unpack(packet, packet_length, bytes)) {
        return 0;
    }
    pciex_lcrc(bytes, (size_t)packet_length, field, sizeof field);
    return (uint32_t)field[0] << 24 | (uint32_t)field[1] << 16 | (uint32_t)field[2] << 8 | field[3];
}

int pciex_dpi_lcrc_check(const svBitVecVal *packet, int packet_length)
{
    uint8_t bytes[MOST];
    if (!unpack(packet, packet_length, bytes)) {
        return PCIEX_FAILED;
    }
    return (int)pciex_lcrc_check(bytes, (size_t)packet_length);
}

uint32_t pciex_dpi_dllp_crc(uint32_t dllp)
{
    const uint8_t bytes[4] = {(uint8_t)(dllp >> 24), (uint8_t)(dllp >> 16), (uint8_t)(dllp >> 8), (uint8_t)dllp};
    uint8_t field[2];
    pciex_dllp_crc(bytes, sizeof bytes, field, sizeof field);
    return (uint32_t)field[0] << 8 | field[1];
}

#ifdef __cplusplus
}
#endif
