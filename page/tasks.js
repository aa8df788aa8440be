// Tables: the tasks and what each may do, the options of each subcommand, the forms of its lines, what its output may become.
"use strict";

const flag = (name, says, is = false) => ({ name, says, is, kind: "flag" });
const field = (name, says, is, takes) => ({ name, says, is, takes, kind: "field" });
const choice = (name, says, is, values) => ({ name, says, is, values, kind: "choice" });
const LANES = ["", "up1", "up2", "up3", "up4", "up5", "up6", "up7", "in", "out", "down1", "down2", "down3", "down4", "down5", "down6", "down7"];

// Each option of the program's help, with its default: said_test.js compares them. An option at its default isn't written.
// `must`: it is always written. `needs`: it is there with that flag alone. `isRare`: it stands folded.
const OPTIONS = {
    tlp: [
        field("base", "First address", "0", "hexadecimal, a multiple of 80"),
        field("size", "Bytes of memory", "4096", "128 to 1048576, a multiple of 128"),
        choice("block", "Bytes of a block", "64", ["64", "128"]),
    ],
    decode: [],
    encode: [],
    step: [flag("keep-going", "Go on after a refused event")],
    check: [flag("clocked", "Also test the n: the order between requesters")],
    upgrade: [],
    search: [
        choice("granularity", "Bytes that act at once", "whole", ["whole", "4", "8", "16", "64"]),
        { ...field("limit", "Choices at most", "1000000", "1 to 1000000000"), isRare: true },
        { ...field("work", "Work at most", "300000000", "1 to 1000000000000"), isRare: true },
        flag("core", "Print a short log in place of “none”"),
    ],
    generate: [
        { ...field("seed", "Seed", "1", "0 to 18446744073709551615"), must: true },
        { ...field("events", "Events", "100", "0 to 1000000000"), must: true },
        field("requesters", "Requesters", "3", "1 to 7"),
        field("lose", "Lose one packet in", "0", "0 to 65536; 0 loses none"),
        field("corrupt", "Corrupt one packet in", "0", "0 to 65536; 0 corrupts none"),
        choice("block", "Bytes of a block", "64", ["64", "128"]),
    ],
    endpoint: [
        field("size", "Bytes of memory", "4096", "a power of two, 4096 to 1048576"),
        field("id", "Vendor and Device ID", "1234:7C1E", "four hexadecimal digits each"),
        flag("trace", "Record what acts, for the line “trace”"),
        flag("link", "Behind an end of a link"),
        { ...flag("crc", "Packets and DLLPs have their CRC"), needs: "link" },
        { ...field("credits", "Credits PH,PD,NPH,NPD", "16,64,16,16", "as advertised"), needs: "link" },
    ],
    chart: [
        flag("all", "Acks and credits that say nothing new, too"),
        flag("levels", "Levels of queues and credits"),
        { ...choice("lane", "Lane", "", LANES), isRare: true },
        { ...field("from", "From line", "1", "of the script"), isRare: true },
        { ...field("to", "To line", "", "of the script"), isRare: true },
    ],
    draw: [
        { ...field("from", "From point", "0", "a length of the history"), isRare: true },
        { ...field("to", "To point", "", "a length of the history"), isRare: true },
    ],
};

// The page's own values, where they aren't the program's.
const SET = { endpoint: { trace: true } };
// Options that the page gives by itself, or that make no sense in it.
const UNSHOWN = { step: ["echo", "trace"], search: ["draw", "progress"] };

const PACKET_FORMS = [
    ["00000001 0100060F 00000040", "MRd of 4 bytes at 40h, Requester ID 0100, tag 06"],
    ["40000001 0100000F 00000040 01020304", "MWr of 4 bytes at 40h"],
    ["4C000001 01000500 00000040 07000000", "FetchAdd of 7; 4D is Swap"],
    ["4E000002 01000800 00000040 07000000 FFFFFFFF", "CAS: compare 7, swap FFFFFFFF"],
];
const OPERATION_FORMS = [
    ["read 40 1 F 0", "address, number of DW, First and Last DW BE"],
    ["write 40 F 0 01020304", "address, First and Last DW BE, bytes: posted"],
    ["add 40 07000000", "FetchAdd; the operand in memory order"],
    ["swap 40 05000000", "Swap"],
    ["cas 40 00000000 01000000", "CAS: compare, swap"],
];
const FORMS = {
    tlp: PACKET_FORMS,
    decode: [
        ...PACKET_FORMS,
        ["04000001 0008630F 01000000", "CfgRd0 of Vendor and Device ID; 44 is CfgWr0, 05 and 45 are of Type 1"],
        ["00000000", "four bytes are a DLLP: an Ack of 000"],
    ],
    encode: [
        ...OPERATION_FORMS.map(([form, says]) => [`${form} from 0100 tag 05`, says]),
        ["completion sc 00000000 to 0100 tag 05 by 0000 count 4 lower 00", "a completion: sc, ur or ca"],
        ["cfgread 1:0.0 000 F from 0008 tag 63", "CfgRd0: function, register, First DW BE; cfgread1 is of Type 1"],
        ["cfgwrite 1:0.0 010 F FFFFFFFF from 0008 tag 64", "CfgWr0, with its data"],
        ["ack 000", "or nak, with a sequence number"],
        ["update p 2 16", "UpdateFC of p, np or cpl: headers, data"],
    ],
    step: [
        ["fabric 1 0 4096", "the first line: requesters, base, size"],
        ...OPERATION_FORMS.map(([form, says]) => [`submit 1 ${form}`, says]),
        ["settle", "run until nothing moves"],
        ["transmit up1", "a lane's sender sends: up1 to up7, in, out, down1 to down7"],
        ["deliver up1 good", "the oldest packet arrives: good, failed or lost"],
        ["dllp up1 ack", "the receiver sends ack, p, np or cpl"],
        ["deliver-dllp up1 good", "the oldest DLLP arrives: good, failed or lost"],
        ["timer up1", "the replay timer expires"],
        ["retrained up1", "a link that stopped is retrained"],
        ["forward up1 0", "the switch forwards, from this position of the queue"],
        ["serve 0", "the memory acts"],
        ["collect 1", "requester 1 takes its completion"],
    ],
    check: [
        ["pciex-trace 2", "the head"],
        ["memory 0 4096 64", "base, size, block"],
        ["sub 1 0 0 add 40 01000000", "requester, its request's number, n, operation"],
        ["ans 1 0 1 data 00000000", "requester, number, n, reply: data, ur or ca"],
        ["history", "what acted, in order, follows"],
        ["ent 1 0 add 40 01000000", "requester, number, operation"],
        ["end", "the last line"],
    ],
    search: [
        ["pciex-log 1", "the head; in version 2 a reply may be done"],
        ["memory 0 4096 64", "base, size, block"],
        ["sub 1 0 add 40 01000000", "requester 1 to 7, its request's number, operation"],
        ["ans 1 0 data 00000000", "requester, number, reply: data, ur or ca"],
        ["ans 1 0 done", "version 2: it acted, and its reply isn't known"],
        ["end", "the last line"],
    ],
    endpoint: [
        ["tlp 04000001 0008630F 01000000", "a TLP: here a read of Vendor and Device ID"],
        ["next", "the oldest request acts: its completion"],
        ["reset", "registers are as at first"],
        ["trace", "what acted on the memory"],
        ["packet 0000 04000001 0008630F 01000000 good", "behind a link: sequence number and TLP"],
        ["dllp 40080080 good", "behind a link: a DLLP"],
        ["up", "behind a link: the physical layer is up"],
    ],
};
FORMS.upgrade = FORMS.check;

// `command`: the subcommand. `text`: the name of its input, if it has one. `always`: options that the page gives. `beside`: each
// line of the text has its results: the table's name, and those of its two columns. `draws`: the subcommand that draws.
const TASKS = [
    {
        name: "packets", title: "Answer packets", page: "formats.md#pciex-tlp", forms: "Packets to begin with",
        about: "One TLP a line, in hexadecimal digits. The device answers each with its completion, and one memory serves them all.",
        modes: [
            { command: "tlp", title: "Answer them", text: "Requests, one a line", beside: ["Request by request", "Request", "Completion"] },
            { command: "decode", title: "Say them in words", text: "Packets, one a line", beside: ["Packet by packet", "Packet", "In words"] },
            { command: "encode", title: "Make bytes of words", text: "Packets in words, one a line", beside: ["Packet by packet", "In words", "Bytes"] },
        ],
    },
    {
        name: "script", title: "Run a script", page: "formats.md#pciex-step", forms: "Lines of a script",
        about: "Requesters, links, a switch and a memory. You decide what is sent, lost and replayed; “settle” runs the rest.",
        modes: [{ command: "step", always: ["--echo"], title: "Run it", text: "Script", beside: ["Event by event", "Event", "Result"], draws: "chart" }],
    },
    {
        name: "log", title: "Judge a log", page: "other-logs.md", forms: "Lines of a log",
        about: "What clients asked and were answered, in the order of time. Is there an order in which one memory gives these answers?",
        modes: [{ command: "search", title: "Judge it", text: "Log, or a trace", draws: "search" }],
    },
    {
        name: "trace", title: "Check a trace", page: "checked-history.md", forms: "Lines of a trace",
        about: "A log with the history that is claimed for it: the requests in the order in which they acted.",
        modes: [
            { command: "check", title: "Check it", text: "Trace", draws: "draw" },
            { command: "upgrade", title: "Rewrite it in version 2", text: "Trace" },
        ],
    },
    {
        name: "random", title: "Random script", page: "formats.md#pciex-generate",
        about: "Events drawn from a seed, on every machine the same. Packets and DLLPs are lost and corrupted as you say.",
        modes: [{ command: "generate", title: "Write it" }],
    },
    {
        name: "endpoint", title: "Bring up an endpoint", page: "bring-it-up.md", forms: "Lines of a root complex",
        about: "You are the root complex: read the IDs, set BAR 0, switch memory on, and use it. Ask for completions with “next”.",
        modes: [{ command: "endpoint", title: "Bring it up", text: "Lines of the root complex", beside: ["Line by line", "Root complex", "Device"] }],
    },
];

const MODES = {};
for (const task of TASKS) for (const mode of task.modes) MODES[mode.command] = { ...mode, task };

const whole = (result) => result.output;
const lines = (keep) => (result) => result.output.split("\n").filter(keep).join("\n") + "\n";
const isPacket = (line) => /^[0-9A-F]{8}( |$)/.test(line);
const isWords = (line) => line !== "" && !line.startsWith("fault");
const isRequest = (line) => isPacket(line) && line.length > 8 && !/^(.A|[04][45])/.test(line); // neither a DLLP nor a completion, nor of a configuration
const tracePart = (result) => (result.output.match(/^pciex-trace 2\n[^]*?^end$/m) || [""])[0] + "\n";

// What may become of an output: `says` the words of the button, `when` it is there, `to` the subcommand that takes it, `text`
// what that is given, with `options`. `again`: options with which the text is run once more for that output; if it isn't
// good, `otherwise` is said.
const HANDS = {
    generate: [{ says: "Use as script", when: (result) => result.status === 0, to: "step", text: whole }],
    step: [
        { says: "Check and draw its trace", when: (result) => result.status === 0, to: "check", again: ["--trace"], text: whole },
        { says: "Judge what its requesters saw", when: (result) => result.status === 0, to: "search", again: ["--trace"], text: whole },
    ],
    search: [
        { says: "Check this trace", when: (result) => result.output.startsWith("pciex-trace"), to: "check", text: whole },
        {
            says: "Keep the answers that contradict each other", when: (result) => result.output.startsWith("none"), to: "search",
            again: ["--core"], text: whole,
            isGood: (result) => result.output.startsWith("pciex-log"), otherwise: "No shorter log was found.",
        },
    ],
    check: [{ says: "Is there another history?", when: (result) => /^(ok$|flaw)/m.test(result.output), to: "search", text: (result) => result.text }],
    upgrade: [{ says: "Check this trace", when: (result) => result.status === 0, to: "check", text: whole }],
    tlp: [{ says: "Use the completions as packets", when: (result) => result.output.split("\n").some(isPacket), to: "decode", text: lines(isPacket) }],
    decode: [{ says: "Make bytes of these words", when: (result) => result.output.split("\n").some(isWords), to: "encode", text: lines(isWords) }],
    encode: [{ says: "Answer these requests", when: (result) => result.output.split("\n").some(isRequest), to: "tlp", text: lines(isRequest) }],
    endpoint: [
        {
            says: "Check and draw what it did", when: (result) => result.output.includes("pciex-trace 2\n"), to: "check",
            text: tracePart, options: { clocked: true },
        },
    ],
};

if (typeof module === "object") module.exports = { OPTIONS, UNSHOWN, FORMS, TASKS, MODES, HANDS, SET };
