// Two initiators that each add to the word at 40h, with the lines of docs/use-from-c.md in place of SOCKETS and ADDITION.
#include "pciex_tlm.h"

#include <tlm_utils/simple_initiator_socket.h>

#include <iostream>

struct adder : sc_core::sc_module {
    tlm_utils::simple_initiator_socket<adder> socket;

    SC_HAS_PROCESS(adder);
    explicit adder(const sc_core::sc_module_name &name) : sc_module(name), socket("socket") { SC_THREAD(run); }

    void run()
    {
        unsigned char old[4];
        sc_core::sc_time delay = sc_core::SC_ZERO_TIME;
        tlm::tlm_generic_payload trans;
        trans.set_address(0x40);
        trans.set_data_ptr(old);
        trans.set_data_length(sizeof old);
        trans.set_streaming_width(sizeof old);
        ADDITION
        trans.clear_extension(&add);
    }
};

int sc_main(int, char **)
{
    adder first("first"), second("second");
    SOCKETS
    sc_core::sc_start();
    std::cout << int(memory.bytes()[0x40]) << '\n';
    return 0;
}
