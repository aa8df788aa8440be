// pciex_tlm.h: two initiators add to one counter at random times, one by b_transport and one by nb_transport; a third
// reads and writes, with and without byte enables, and meets each refusal. Prints what it found, and fails with 1 where a
// check did.
#include "../pciex_tlm.h"

#include <tlm_utils/simple_initiator_socket.h>

#include <cstdio>
#include <map>
#include <memory>
#include <random>
#include <string>

namespace {

int failed = 0;

void want(bool holds, const char *what)
{
    if (!holds) {
        std::printf("failed: %s\n", what);
        failed = 1;
    }
}

using payload = tlm::tlm_generic_payload;

// An access over these bytes; the extension, if there is one, is the caller's.
struct access {
    payload trans;

    access(tlm::tlm_command command, std::uint64_t address, unsigned char *data, unsigned length,
           pciex::atomic *operation = nullptr)
    {
        trans.set_command(command);
        trans.set_address(address);
        trans.set_data_ptr(data);
        trans.set_data_length(length);
        trans.set_streaming_width(length);
        if (operation) {
            trans.set_extension(operation);
        }
    }
    ~access() { trans.clear_extension<pciex::atomic>(); }
};

// Adds 1 to the counter at 40h by b_transport.
struct blocking_adder : sc_core::sc_module {
    tlm_utils::simple_initiator_socket<blocking_adder> socket;
    const int times;

    SC_HAS_PROCESS(blocking_adder);
    blocking_adder(const sc_core::sc_module_name &name, int times) : sc_module(name), socket("socket"), times(times)
    {
        SC_THREAD(run);
    }

    void run()
    {
        std::minstd_rand random(1);
        for (int i = 0; i < times; i++) {
            wait(sc_core::sc_time(random() % 10, sc_core::SC_NS));
            pciex::atomic add(pciex::atomic::fetch_add, 1);
            unsigned char old[4];
            access it(tlm::TLM_IGNORE_COMMAND, 0x40, old, 4, &add);
            sc_core::sc_time delay = sc_core::SC_ZERO_TIME;
            socket->b_transport(it.trans, delay);
            want(it.trans.is_response_ok(), "an addition by b_transport");
        }
    }
};

// The same by nb_transport, with the extension and the memory management that it asks for.
struct nonblocking_adder : sc_core::sc_module, tlm::tlm_mm_interface {
    tlm_utils::simple_initiator_socket<nonblocking_adder> socket;
    const int times;
    int freed = 0;
    sc_core::sc_event answered;

    SC_HAS_PROCESS(nonblocking_adder);
    nonblocking_adder(const sc_core::sc_module_name &name, int times)
        : sc_module(name), socket("socket"), times(times)
    {
        socket.register_nb_transport_bw(this, &nonblocking_adder::nb_transport_bw);
        SC_THREAD(run);
    }

    void free(payload *trans) override
    {
        freed++;
        trans->set_data_ptr(nullptr);
        trans->reset();
        delete trans;
    }

    tlm::tlm_sync_enum nb_transport_bw(payload &, tlm::tlm_phase &phase, sc_core::sc_time &)
    {
        if (phase != tlm::BEGIN_RESP) {
            return tlm::TLM_ACCEPTED;
        }
        answered.notify(sc_core::SC_ZERO_TIME);
        return tlm::TLM_COMPLETED;
    }

    void run()
    {
        std::minstd_rand random(2);
        unsigned char old[4];
        for (int i = 0; i < times; i++) {
            wait(sc_core::sc_time(random() % 10, sc_core::SC_NS));
            payload *trans = new payload(this);
            trans->acquire();
            trans->set_command(tlm::TLM_IGNORE_COMMAND);
            trans->set_address(0x40);
            trans->set_data_ptr(old);
            trans->set_data_length(4);
            trans->set_streaming_width(4);
            trans->set_auto_extension(new pciex::atomic(pciex::atomic::fetch_add, 1));
            tlm::tlm_phase phase = tlm::BEGIN_REQ;
            sc_core::sc_time delay = sc_core::SC_ZERO_TIME;
            if (socket->nb_transport_fw(*trans, phase, delay) != tlm::TLM_COMPLETED) {
                wait(answered);
            }
            want(trans->is_response_ok(), "an addition by nb_transport");
            trans->release();
        }
    }
};

// Reads and writes beside the same ones on a plain array, and each refusal.
struct reader : sc_core::sc_module {
    tlm_utils::simple_initiator_socket<reader> socket;
    unsigned char plain[1024] = {};

    SC_HAS_PROCESS(reader);
    explicit reader(const sc_core::sc_module_name &name) : sc_module(name), socket("socket") { SC_THREAD(run); }

    tlm::tlm_response_status send(payload &trans)
    {
        sc_core::sc_time delay = sc_core::SC_ZERO_TIME;
        trans.set_response_status(tlm::TLM_INCOMPLETE_RESPONSE);
        socket->b_transport(trans, delay);
        want(!trans.is_dmi_allowed() && delay == sc_core::SC_ZERO_TIME, "no DMI, no delay");
        return trans.get_response_status();
    }

    void mixed()
    {
        std::minstd_rand random(3);
        for (int i = 0; i < 1000; i++) {
            // From 100h on, so that the counter stays the adders'.
            const unsigned length = 1 + random() % 300, from = 0x100 + random() % (0x300 - length);
            const bool is_write = random() % 2, is_cut = random() % 2;
            unsigned char data[300], enables[7], wanted[300];
            for (unsigned char &byte : data) byte = static_cast<unsigned char>(random());
            for (unsigned char &byte : enables) byte = random() % 2 ? TLM_BYTE_ENABLED : TLM_BYTE_DISABLED;
            std::memcpy(wanted, data, sizeof data);
            for (unsigned j = 0; j < length; j++) {
                if (!is_cut || enables[j % 7]) {
                    (is_write ? plain[from + j] : wanted[j]) = is_write ? data[j] : plain[from + j];
                }
            }
            access it(is_write ? tlm::TLM_WRITE_COMMAND : tlm::TLM_READ_COMMAND, from, data, length);
            it.trans.set_byte_enable_ptr(is_cut ? enables : nullptr);
            it.trans.set_byte_enable_length(is_cut ? 7 : 0);
            want(send(it.trans) == tlm::TLM_OK_RESPONSE, "a read or a write");
            want(std::memcmp(data, wanted, sizeof data) == 0, "the bytes of a read, and the data of a write");
        }
    }

    void operations()
    {
        unsigned char old[16];
        pciex::atomic swap(pciex::atomic::swap, 0x1122334455667788), add(pciex::atomic::fetch_add, ~0ull);
        pciex::atomic cas(pciex::atomic::cas, 0x1122334455667787, 5);
        access first(tlm::TLM_IGNORE_COMMAND, 0x80, old, 8, &swap), second(tlm::TLM_IGNORE_COMMAND, 0x80, old, 8, &add);
        access third(tlm::TLM_IGNORE_COMMAND, 0x80, old, 16, &cas), fourth(tlm::TLM_READ_COMMAND, 0x80, old, 8);
        want(send(first.trans) == tlm::TLM_OK_RESPONSE && old[0] == 0, "a Swap");
        want(send(second.trans) == tlm::TLM_OK_RESPONSE && old[0] == 0x88 && old[7] == 0x11, "a FetchAdd of -1");
        want(send(third.trans) == tlm::TLM_OK_RESPONSE && old[0] == 0x87, "a CAS of 16 bytes");
        want(send(fourth.trans) == tlm::TLM_OK_RESPONSE && old[0] == 5 && old[1] == 0, "what it put there");
        access none(tlm::TLM_IGNORE_COMMAND, 1, old, 1);
        want(send(none.trans) == tlm::TLM_OK_RESPONSE, "TLM_IGNORE_COMMAND alone");
    }

    void refusals()
    {
        unsigned char data[16] = {}, enables[1] = {TLM_BYTE_ENABLED};
        pciex::atomic add(pciex::atomic::fetch_add, 1);
        const tlm::tlm_command read = tlm::TLM_READ_COMMAND, write = tlm::TLM_WRITE_COMMAND,
                               ignore = tlm::TLM_IGNORE_COMMAND;
        access across(write, 1020, data, 8), after(read, 1024, data, 4), far(read, ~0ull, data, 2);
        access empty(read, 0, data, 0), narrow(read, 0, data, 8), blind(read, 0, data, 4);
        access odd(ignore, 0x42, data, 4, &add), long_odd(ignore, 0x44, data, 8, &add);
        access small(ignore, 0x40, data, 2, &add), wide(ignore, 0x40, data, 16, &add);
        access cut(ignore, 0x40, data, 4, &add), outside(ignore, 1024, data, 4, &add);
        narrow.trans.set_streaming_width(4);
        blind.trans.set_byte_enable_ptr(enables);
        cut.trans.set_byte_enable_ptr(enables);
        cut.trans.set_byte_enable_length(1);
        for (access *it : {&across, &after, &far, &odd, &long_odd, &outside}) {
            want(send(it->trans) == tlm::TLM_ADDRESS_ERROR_RESPONSE, "an address error");
        }
        for (access *it : {&empty, &narrow, &small, &wide}) {
            want(send(it->trans) == tlm::TLM_BURST_ERROR_RESPONSE, "a burst error");
        }
        for (access *it : {&blind, &cut}) {
            want(send(it->trans) == tlm::TLM_BYTE_ENABLE_ERROR_RESPONSE, "a byte enable error");
        }
    }

    void debug()
    {
        unsigned char data[8] = {1, 2, 3, 4};
        access put(tlm::TLM_WRITE_COMMAND, 1022, data, 4), get(tlm::TLM_READ_COMMAND, 1020, data, 8);
        access after(tlm::TLM_READ_COMMAND, 1024, data, 4);
        want(socket->transport_dbg(put.trans) == 2 && socket->transport_dbg(get.trans) == 4, "transport_dbg");
        want(data[2] == 1 && data[3] == 2 && socket->transport_dbg(after.trans) == 0, "its bytes");
        plain[1022] = 1, plain[1023] = 2;
        tlm::tlm_dmi region;
        want(!socket->get_direct_mem_ptr(get.trans, region), "no DMI");
    }

    void run()
    {
        refusals();
        mixed();
        operations();
        debug();
    }
};

// The words of a TLP.
std::string words(const std::uint8_t *tlp, std::size_t length)
{
    std::uint8_t room[PCIEX_LINE];
    const std::uint32_t code = pciex_decode(tlp, length, room, sizeof room);
    return std::string(reinterpret_cast<char *>(room), code < 1000 ? code : code - 1000);
}

// Writes over two blocks of a memory above 2^32, on a bus of 64 bits.
struct high_writer : sc_core::sc_module {
    tlm_utils::simple_initiator_socket<high_writer, 64> socket;
    const pciex::memory<64> &memory;
    std::string parts;

    SC_HAS_PROCESS(high_writer);
    high_writer(const sc_core::sc_module_name &name, pciex::memory<64> &memory)
        : sc_module(name), socket("socket"), memory(memory)
    {
        memory.on_request = [this](unsigned, const std::uint8_t *tlp, std::size_t length) {
            parts += words(tlp, length).substr(0, 20) + "..\n";
        };
        SC_THREAD(run);
    }

    void run()
    {
        unsigned char data[140] = {1, 2, 3};
        access write(tlm::TLM_WRITE_COMMAND, 0x10000000A, data, 140);
        sc_core::sc_time delay = sc_core::SC_ZERO_TIME;
        socket->b_transport(write.trans, delay);
        want(write.trans.is_response_ok() && memory.bytes()[0xA] == 1 && memory.bytes()[0xC] == 3, "its bytes");
        want(parts == "write 100000008 C F ..\nwrite 100000080 F 3 ..\n", "its parts");
    }
};

}  // namespace

int sc_main(int, char **)
{
    const int times = 1000;
    pciex::memory<> memory("memory", 3, 1024);
    pciex::memory<64> high("high", 1, 256, 0x100000000, 128);
    blocking_adder first("first", times);
    nonblocking_adder second("second", times);
    reader third("third");
    high_writer fourth("fourth", high);
    first.socket.bind(memory.sockets[0]);
    second.socket.bind(memory.sockets[1]);
    third.socket.bind(memory.sockets[2]);
    fourth.socket.bind(high.sockets[0]);

    std::map<std::string, int> seen;
    memory.on_request = [&](unsigned requester, const std::uint8_t *tlp, std::size_t length) {
        const std::string text = words(tlp, length);
        seen[std::to_string(requester) + " " + text.substr(0, text.find(' '))]++;
    };
    memory.on_completion = [&](unsigned requester, const std::uint8_t *tlp, std::size_t length) {
        const std::string text = words(tlp, length);
        seen[std::to_string(requester) + " " + text.substr(0, text.find(' ', 11))]++;
    };
    sc_core::sc_start();

    for (unsigned i = 0x100; i < 1024; i++) {
        want(memory.bytes()[i] == third.plain[i], "the bytes at the end");
    }
    want(second.freed == times, "each transaction of nb_transport is freed");

    std::printf("the counter is %u\n", memory.bytes()[0x40] | memory.bytes()[0x41] << 8);
    for (const auto &[what, count] : seen) {
        std::printf("requester %s: %d\n", what.c_str(), count);
    }
    return failed;
}
