/*
 * A memory target for TLM-2.0 that answers by pciex_answer: each access of an initiator becomes TLPs, and what it does is
 * what these do. Header only, for C++17 and SystemC 2.3; link libpciex_c.a and the toolchain's liblibc_c.a.
 *
 *     pciex::memory<32> memory("memory", 2, 4096);            two requesters, 4096 bytes at address 0
 *     initiator.socket.bind(memory.sockets[0]);               requester 1
 *
 * Each requester has a socket, for b_transport, nb_transport and transport_dbg. There is no DMI, and no time passes.
 * All that an access does it does at once: no process runs in between.
 */
#ifndef PCIEX_TLM_H
#define PCIEX_TLM_H

#include "../pciex.h"

#include <systemc>
#include <tlm>
#include <tlm_utils/simple_target_socket.h>

#include <algorithm>
#include <array>
#include <cstdint>
#include <cstring>
#include <functional>
#include <vector>

namespace pciex {

/*
 * An AtomicOp, as an extension of an access with TLM_IGNORE_COMMAND. The access has the address and, as its data length,
 * the operand's size: 4 or 8 bytes, for cas 16 too. The address is a multiple of it. Operands stand in memory order,
 * lowest byte first. The old value comes at the data pointer.
 */
struct atomic : tlm::tlm_extension<atomic> {
    enum kind_type { fetch_add, swap, cas };
    using operand_type = std::array<std::uint8_t, 16>;

    kind_type kind = fetch_add;
    operand_type operand{};  /* what is added or put there; of cas the compare value */
    operand_type swapped{};  /* of cas the swap value */

    atomic() = default;
    atomic(kind_type kind, std::uint64_t operand, std::uint64_t swapped = 0)
        : kind(kind), operand(bytes_of(operand)), swapped(bytes_of(swapped))
    {
    }

    static operand_type bytes_of(std::uint64_t number)
    {
        operand_type bytes{};
        for (std::size_t i = 0; i < 8; i++) {
            bytes[i] = static_cast<std::uint8_t>(number >> 8 * i);
        }
        return bytes;
    }

    tlm::tlm_extension_base *clone() const override { return new atomic(*this); }
    void copy_from(const tlm::tlm_extension_base &other) override { *this = static_cast<const atomic &>(other); }
};

/*
 * A memory of `size` zeros at the address `base`, for 1 to 7 requesters, by blocks of 64 or 128 bytes: sockets[i] is the
 * one of requester i + 1, whose Requester ID is 256 * (i + 1).
 *
 * A read or a write is one TLP for each block that it lies in; with byte enables, for each 8 bytes that it lies in. An
 * access that isn't wholly in the memory changes nothing and is answered TLM_ADDRESS_ERROR_RESPONSE, as an AtomicOp is
 * whose address isn't a multiple of its operand's size. A length of 0, one above the streaming width and an operand of
 * another size are TLM_BURST_ERROR_RESPONSE; byte enables of length 0, or of an AtomicOp, are
 * TLM_BYTE_ENABLE_ERROR_RESPONSE. TLM_IGNORE_COMMAND without the extension does nothing and is TLM_OK_RESPONSE.
 */
template <unsigned int BUSWIDTH = 32>
class memory : public sc_core::sc_module {
public:
    using socket_type = tlm_utils::simple_target_socket_tagged<memory, BUSWIDTH>;
    using hook_type = std::function<void(unsigned requester, const std::uint8_t *tlp, std::size_t length)>;

    sc_core::sc_vector<socket_type> sockets;

    /* Called with each request before it acts and with each completion after it, in that order: for a monitor. What
       transport_dbg does isn't seen. */
    hook_type on_request;
    hook_type on_completion;

    memory(const sc_core::sc_module_name &name, unsigned requesters, std::size_t size, std::uint64_t base = 0,
           std::uint16_t block = 64)
        : sc_core::sc_module(name), sockets("socket", requesters), bytes_(size), base_(base), block_(block)
    {
        if (requesters < 1 || requesters > 7) {
            SC_REPORT_ERROR("/pciex/memory", "there are 1 to 7 requesters");
        }
        if (block != 64 && block != 128) {
            SC_REPORT_ERROR("/pciex/memory", "a block has 64 or 128 bytes");
        }
        if (size == 0 || size - 1 > UINT64_MAX - base) {
            SC_REPORT_ERROR("/pciex/memory", "a memory has 1 byte or more, with addresses below 2^64");
        }
        for (unsigned i = 0; i < requesters; i++) {
            sockets[i].register_b_transport(this, &memory::b_transport, static_cast<int>(i));
            sockets[i].register_transport_dbg(this, &memory::transport_dbg, static_cast<int>(i));
        }
    }

    /* The memory as it is now, from the base on. */
    const std::vector<std::uint8_t> &bytes() const { return bytes_; }

private:
    /* One TLP's part of a read or a write: whole DWs from an address on, and First and Last DW BE. */
    struct part {
        std::uint64_t address;
        std::size_t dw;
        unsigned first, last;

        /* Whether byte `place` of the DWs is enabled. */
        bool has(std::size_t place) const
        {
            const unsigned enables = place / 4 == 0 ? first : place / 4 == dw - 1 ? last : 0xF;
            return enables >> place % 4 & 1;
        }
    };

    using packet = std::array<std::uint8_t, PCIEX_PACKET>;

    std::vector<std::uint8_t> bytes_;
    std::uint64_t base_;
    std::uint16_t block_;

    void b_transport(int id, tlm::tlm_generic_payload &access, sc_core::sc_time &)
    {
        const unsigned requester = static_cast<unsigned>(id) + 1;
        access.set_dmi_allowed(false);
        if (access.get_command() == tlm::TLM_IGNORE_COMMAND) {
            const atomic *operation = access.get_extension<atomic>();
            access.set_response_status(operation ? update(requester, access, *operation) : tlm::TLM_OK_RESPONSE);
        } else {
            access.set_response_status(move(requester, access));
        }
    }

    /* Reads or writes the bytes of the memory themselves, as far as they go. */
    unsigned int transport_dbg(int, tlm::tlm_generic_payload &access)
    {
        const std::uint64_t place = access.get_address() - base_;
        if (access.get_command() == tlm::TLM_IGNORE_COMMAND || access.get_address() < base_ || place >= bytes_.size()) {
            return 0;
        }
        const std::size_t count = std::min<std::size_t>(access.get_data_length(), bytes_.size() - place);
        if (access.is_read()) {
            std::memcpy(access.get_data_ptr(), &bytes_[place], count);
        } else {
            std::memcpy(&bytes_[place], access.get_data_ptr(), count);
        }
        return static_cast<unsigned int>(count);
    }

    bool holds(std::uint64_t address, std::size_t length) const
    {
        return address >= base_ && length <= bytes_.size() && address - base_ <= bytes_.size() - length;
    }

    /* ---- reads and writes */

    tlm::tlm_response_status move(unsigned requester, tlm::tlm_generic_payload &access)
    {
        const std::size_t length = access.get_data_length();
        const std::uint64_t address = access.get_address();
        if (length == 0 || access.get_streaming_width() < length) {
            return tlm::TLM_BURST_ERROR_RESPONSE;
        }
        if (access.get_byte_enable_ptr() && access.get_byte_enable_length() == 0) {
            return tlm::TLM_BYTE_ENABLE_ERROR_RESPONSE;
        }
        if (!holds(address, length)) {
            return tlm::TLM_ADDRESS_ERROR_RESPONSE;
        }
        const std::size_t most = access.get_byte_enable_ptr() ? 8 : block_;
        for (std::size_t done = 0; done < length;) {
            const std::size_t count = std::min<std::size_t>(most - (address + done) % most, length - done);
            const part it = part_of(access, done, count);
            if (it.dw > 0 && !move_part(requester, access, it)) {
                return tlm::TLM_GENERIC_ERROR_RESPONSE;
            }
            done += count;
        }
        return tlm::TLM_OK_RESPONSE;
    }

    /* Whether the access enables byte `place` of its data. */
    static bool is_enabled(tlm::tlm_generic_payload &access, std::size_t place)
    {
        const unsigned char *enables = access.get_byte_enable_ptr();
        return !enables || enables[place % access.get_byte_enable_length()] == TLM_BYTE_ENABLED;
    }

    /* The part of `count` bytes from byte `done` of the access on, without the DWs at either end of which no byte is
       enabled: no DW if none is. */
    static part part_of(tlm::tlm_generic_payload &access, std::size_t done, std::size_t count)
    {
        while (count > 0 && !is_enabled(access, done)) {
            done++, count--;
        }
        while (count > 0 && !is_enabled(access, done + count - 1)) {
            count--;
        }
        const std::uint64_t from = access.get_address() + done;
        part it{from - from % 4, count == 0 ? 0 : (from % 4 + count + 3) / 4, 0, 0};
        for (std::size_t i = 0; i < count; i++) {
            const std::size_t place = from % 4 + i;
            const unsigned bit = is_enabled(access, done + i) ? 1u << place % 4 : 0;
            it.first |= place / 4 == 0 ? bit : 0;
            it.last |= place / 4 > 0 && place / 4 == it.dw - 1 ? bit : 0;
        }
        return it;
    }

    bool move_part(unsigned requester, tlm::tlm_generic_payload &access, const part &it)
    {
        packet request, completion;
        unsigned char *data = access.get_data_ptr();
        const bool is_read = access.is_read();
        std::size_t length = put_header(request, is_read ? 0x00 : 0x40, requester, it.address, it.dw);
        request[7] = static_cast<std::uint8_t>(it.last << 4 | it.first);
        for (std::size_t i = 0; i < 4 * it.dw && !is_read; i++) {
            request[length++] = it.has(i) ? data[it.address + i - access.get_address()] : 0;
        }
        const std::size_t wanted = is_read ? 12 + 4 * it.dw : 0;
        if (answer(requester, request, length, completion) != wanted) {
            return false;
        }
        for (std::size_t i = 0; i < 4 * it.dw && is_read; i++) {
            if (it.has(i)) {
                data[it.address + i - access.get_address()] = completion[12 + i];
            }
        }
        return true;
    }

    /* ---- AtomicOps */

    tlm::tlm_response_status update(unsigned requester, tlm::tlm_generic_payload &access, const atomic &operation)
    {
        const std::size_t size = access.get_data_length();
        const bool is_cas = operation.kind == atomic::cas;
        if ((size != 4 && size != 8 && !(size == 16 && is_cas)) || access.get_streaming_width() < size) {
            return tlm::TLM_BURST_ERROR_RESPONSE;
        }
        if (access.get_byte_enable_ptr()) {
            return tlm::TLM_BYTE_ENABLE_ERROR_RESPONSE;
        }
        /* The two lowest bits of an address don't stand in a TLP, so their test is here. */
        if (access.get_address() % size != 0 || !holds(access.get_address(), size)) {
            return tlm::TLM_ADDRESS_ERROR_RESPONSE;
        }
        packet request, completion;
        const std::uint8_t kind = operation.kind == atomic::fetch_add ? 0x4C : is_cas ? 0x4E : 0x4D;
        std::size_t length = put_header(request, kind, requester, access.get_address(), size / 4 * (is_cas ? 2 : 1));
        length = put(request, length, operation.operand, size);
        length = is_cas ? put(request, length, operation.swapped, size) : length;
        if (answer(requester, request, length, completion) != 12 + size) {
            return tlm::TLM_GENERIC_ERROR_RESPONSE;
        }
        std::memcpy(access.get_data_ptr(), &completion[12], size);
        return tlm::TLM_OK_RESPONSE;
    }

    static std::size_t put(packet &to, std::size_t length, const atomic::operand_type &operand, std::size_t size)
    {
        std::copy_n(operand.begin(), size, to.begin() + static_cast<std::ptrdiff_t>(length));
        return length + size;
    }

    /* ---- TLPs */

    /* Puts the header of a request with tag 0 to the front; how many bytes it has. From 2^32 on it has four DWs. */
    static std::size_t put_header(packet &to, std::uint8_t kind, unsigned requester, std::uint64_t address,
                                  std::size_t dw)
    {
        const bool is_long = address >> 32 != 0;
        const std::size_t length = is_long ? 16 : 12;
        to = {static_cast<std::uint8_t>(kind | (is_long ? 0x20 : 0)), 0, static_cast<std::uint8_t>(dw >> 8),
              static_cast<std::uint8_t>(dw), static_cast<std::uint8_t>(requester), 0, 0, 0};
        for (std::size_t i = 8; i < length; i++) {
            to[i] = static_cast<std::uint8_t>(address >> 8 * (length - 1 - i));
        }
        return length;
    }

    /* The code of pciex_answer; the hooks see the request and the completion. */
    std::uint32_t answer(unsigned requester, const packet &request, std::size_t length, packet &completion)
    {
        if (on_request) {
            on_request(requester, request.data(), length);
        }
        const std::uint32_t code = pciex_answer(bytes_.data(), bytes_.size(), base_, block_, request.data(), length,
                                                completion.data(), completion.size());
        if (on_completion && code > 0 && code < 1000) {
            on_completion(requester, completion.data(), code);
        }
        return code;
    }
};

}  // namespace pciex

#endif
