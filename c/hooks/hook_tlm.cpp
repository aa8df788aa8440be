// A target of one's own, which loses the second access, and the lines that find it: a write of 7, one of 9, and a read.
#include "pciex_tlm.h"

#include <tlm_utils/simple_initiator_socket.h>

#include <iostream>

struct my_target : sc_core::sc_module {
    tlm_utils::simple_target_socket<my_target> socket;
    unsigned char bytes[4096] = {};
    int turn = 0;

    explicit my_target(const sc_core::sc_module_name &name) : sc_module(name), socket("socket")
    {
        socket.register_b_transport(this, &my_target::b_transport);
    }

    void b_transport(tlm::tlm_generic_payload &trans, sc_core::sc_time &)
    {
        unsigned char *place = bytes + trans.get_address();
        if (trans.is_read()) {
            std::memcpy(trans.get_data_ptr(), place, trans.get_data_length());
        } else if (turn != 1) {
            std::memcpy(place, trans.get_data_ptr(), trans.get_data_length());
        }
        turn++;
        trans.set_response_status(tlm::TLM_OK_RESPONSE);
    }
};

struct initiator : sc_core::sc_module {
    tlm_utils::simple_initiator_socket<initiator> mine, reference;

    SC_HAS_PROCESS(initiator);
    explicit initiator(const sc_core::sc_module_name &name) : sc_module(name), mine("mine"), reference("reference")
    {
        SC_THREAD(run);
    }

    void run()
    {
        for (int turn = 0; turn < 3; turn++) {
            unsigned char data[4] = {static_cast<unsigned char>(7 + 2 * turn), 0, 0, 0};
            sc_core::sc_time delay = sc_core::SC_ZERO_TIME;
            tlm::tlm_generic_payload trans;
            trans.set_command(turn == 2 ? tlm::TLM_READ_COMMAND : tlm::TLM_WRITE_COMMAND);
            trans.set_address(0x40);
            trans.set_data_ptr(data);
            trans.set_data_length(sizeof data);
            trans.set_streaming_width(sizeof data);
            std::cout << "request " << turn << '\n';
            std::vector<unsigned char> expected(trans.get_data_ptr(), trans.get_data_ptr() + trans.get_data_length());
            mine->b_transport(trans, delay);
            trans.set_data_ptr(expected.data());
            reference->b_transport(trans, delay);
            if (!std::equal(expected.begin(), expected.end(), data)) std::cout << "wrong: data\n";
        }
    }
};

int sc_main(int, char **)
{
    initiator first("first");
    my_target target("target");
    pciex::memory<> memory("memory", 1, 4096);
    first.mine.bind(target.socket);
    first.reference.bind(memory.sockets[0]);
    sc_core::sc_start();
    return 0;
}
