// node said_test.js PROGRAM TOP: compares what said.js says of the examples, and of more texts, with what the program prints.
// No sentence of the program is repeated here: each row's input is run, and what is said has to follow from what is printed.
"use strict";
const { spawnSync } = require("child_process");
const { readFileSync, readdirSync } = require("fs");
const { readLines, linesOf, lineOf, verdict, marks, beside, shellWord } = require("./said.js");
const { OPTIONS, UNSHOWN, FORMS, MODES, HANDS } = require("./tasks.js");
const [, , program, top] = process.argv;
let rows = 0, failed = 0;

function run(words, text = "") {
    const done = spawnSync(program, words, { input: text, maxBuffer: 1e9 });
    if (done.error) throw done.error;
    return { status: done.status, output: String(done.stdout), errors: String(done.stderr) };
}
function is(what, got, wanted) {
    rows += 1;
    if (JSON.stringify(got) === JSON.stringify(wanted)) return;
    failed += 1;
    console.log(`page: ${what}: ${String(JSON.stringify(got)).slice(0, 300)} and not ${String(JSON.stringify(wanted)).slice(0, 300)}`);
}
const example = (name) => readFileSync(`${top}/examples/${name}`, "utf8");
const changed = (text, old, other) => {
    if (!text.includes(old)) throw new Error(`an example has no ${old}`);
    return text.replace(old, other);
};

const COMMANDS = [["tlp"], ["decode"], ["encode"], ["step", "--echo"], ["step", "--echo", "--keep-going"], ["endpoint", "--trace"],
    ["endpoint", "--link", "--trace"], ["check"], ["check", "--clocked"], ["search"], ["search", "--core"], ["upgrade"]];

function texts() {
    const made = readdirSync(`${top}/examples`).filter((name) => name.endsWith(".txt")).map((name) => [name, example(name)]);
    for (const name of readdirSync(`${top}/examples/first`).filter((one) => one.endsWith(".txt"))) made.push([name, example(`first/${name}`)]);
    for (const seed of ["1", "2", "3"]) made.push([`seed ${seed}`, run(["generate", "--seed", seed, "--events", "400", "--lose", "3"]).output]);
    const overlaps = example("overlaps.txt");
    made.push(["a wrong answer", changed(overlaps, "ans 1 2 5 data 02020304", "ans 1 2 5 data 01020304")]);
    made.push(["no such entry", changed(overlaps, "\nhistory\n", "\nhistory\nent 7 0 read 40 1 F 0\n")]);
    made.push(["an entry twice", changed(overlaps, "ent 1 0 add 40 01000000\n", "ent 1 0 add 40 01000000\nent 1 0 add 40 01000000\n")]);
    made.push(["writes out of order", "pciex-trace 2\nmemory 0 4096 64\nsub 1 0 0 write 40 F 0 01000000\nsub 1 1 0 write 40 F 0 02000000\n"
        + "history\nent 1 1 write 40 F 0 02000000\nent 1 0 write 40 F 0 01000000\nend\n"]);
    made.push(["answered twice", changed(overlaps, "\nhistory\n", "\nans 1 0 9 data 00000000\nhistory\n")]);
    made.push(["a reply that isn't known", "pciex-log 2\nmemory 0 4096 64\nsub 1 0 swap 0 01000000\nans 1 0 done\n# a comment\n"
        + "sub 1 1 read 0 1 F 0\nans 1 1 data 00000000\nend\n"]);
    made.push(["carriage returns, a comment, no line of a script", "fabric 1 0 4096\r\n\n# x\nsubmit 1 add 40 01000000\n"
        + "settle\nsettle\nserve 0\nnot this line 2 and 3\ncollect 1\n"]);
    made.push(["nothing", ""], ["a word", "settle"], ["a comment", "# line 3\n"], ["a packet that is cut", "4C000001 01000500\n"]);
    return made;
}

// What holds of each text and each subcommand.
function each(name, text, words) {
    const [command] = words, what = `${words.join(" ")}, ${name}`, result = run(words, text);
    const said = verdict(command, text, result), found = marks(command, result);
    is(`${what}: a sentence`, /^[A-Z0-9].{9,}\.$/.test(said.says) && !/undefined|NaN|null/.test(said.says + said.name), true);
    const isEmpty = readLines(text).length === 0 && (text.trim() === "" || result.status === 0);
    is(`${what}: good or bad`, said.is, isEmpty ? "plain" : result.status === 0 ? "good" : "bad");
    is(`${what}: lines of the text`, [...found.keys()].every((number) => number >= 1 && number <= text.split("\n").length + 1), true);
    // each line that begins a reason is marked, and red if it isn't there for people alone
    const first = linesOf(result.errors).map(lineOf).filter((line) => line !== null);
    is(`${what}: marked`, first.every((line) => found.has(line)), true);
    is(`${what}: red`, first.length === 0 ? undefined : found.get(first[0]), first.length === 0 ? undefined : result.status === 0 ? "named" : "wrong");
    if (/^(none|flaw|fault|refused) /m.test(result.output) && !("beside" in MODES[command])) {
        is(`${what}: as printed`, said.name, linesOf(result.output).find((line) => /^(none|flaw|fault|refused) /.test(line)));
    }
    if (!MODES[command].beside) return;
    const besides = beside(command, text, result.output);
    is(`${what}: each settle has its own results`, besides.every(({ results }) => results.filter((one) => one === "settled").length <= 1), true);
    const all = besides
        .flatMap(({ line, results }) => results.map((one) => (command === "step" && !/^fault \d+ [A-Z][A-Za-z]+$/.test(one) ? `${line} -> ${one}` : one)));
    is(`${what}: each result beside its line`, all.join("\n"), result.output.trimEnd());
}

// The line of a record, counted by itself.
const recordLine = (text, index, pattern = /^(sub|ans) /) => readLines(text).filter(({ line }) => pattern.test(line))[index].number;

function places() {
    for (const [name, text] of texts()) {
        const none = run(["search"], text), [, record] = none.output.match(/^none (\d+)$/m) || [];
        if (record) {
            const line = recordLine(text, record);
            is(`search, ${name}: its line`, verdict("search", text, none).says.includes(`record ${record}, line ${line}`), true);
            is(`search, ${name}: its mark`, marks("search", none).get(line), "wrong");
        }
        const flaw = run(["check", "--clocked"], text), [, kind, index] = flaw.output.match(/^flaw \d+ (\w+) (\d+)$/m) || [];
        if (kind) {
            const isEntry = ["Stranger", "Twice", "Order"].includes(kind), line = recordLine(text, index, isEntry ? /^ent / : undefined);
            is(`check, ${name}: its line`, verdict("check", text, flaw).says.includes(`${isEntry ? "entry" : "record"} ${index}, line ${line}`), true);
            is(`check, ${name}: its mark`, marks("check", flaw).get(line), "wrong");
        }
    }
}

// Both forms of a reason's beginning, lines that are parts of a text, and words that are the text's own.
function forms() {
    const log = { status: 1, output: "none 3\n" };
    const long = "pciex: lines 14 to 17 have no history, lines 14 to 16 have one\n", cause = "pciex: 01 at 40 was there once (lines 15 and 16)\n";
    const at = "pciex: line 17: ans 1 1 data 00000000, against these answers:\n";
    is("a reason's line", ["pciex: line 7: x", "pciex: line 7, column 2: x", "pciex: record 3 is line 7: x"].map(lineOf), [7, 7, 7]);
    is("a reason of no line", ["pciex: line 7 shows x", "pciex: x"].map(lineOf), [null, null]);
    const wanted = [[17, "wrong"], [15, "named"], [16, "named"]];
    is("marks", [...marks("search", { ...log, errors: long + at + cause })], wanted);
    is("marks", [...marks("search", { ...log, errors: long.replace("pciex: ", "pciex: record 3 is line 17: ") + cause })], wanted);
    is("words of the text", [...marks("step", { status: 1, output: "", errors: "pciex: line 2: 'submit line 5' is refused: Idle (x)\n" })], [[2, "wrong"]]);
    const limit = verdict("search", "pciex-log 1\n", { status: 3, output: "limit 1000\n", errors: "" });
    is("limit", limit, { is: "unsure", says: "Given up after 1,000 choices: nothing is known.", name: "limit 1000" });
    is("memory", verdict("check", "x", { status: 1, output: "", errors: "pciex: memory\n" }).is, "unsure");
    is("a shell's words", ["a.txt", "--id", "1234:7C1E", "", "a b", "it's"].map(shellWord), ["a.txt", "--id", "1234:7C1E", "''", "'a b'", "'it'\\''s'"]);
}

// An option that is wrong is said as the program does.
function wrongOptions() {
    for (const line of ["tlp --size 3", "search --limit 0", "generate --seed x --events 1", "endpoint --crc", "chart --lane x", "draw --from 3 --to 2"]) {
        const words = line.split(" "), result = run(words), last = linesOf(result.errors).pop();
        is(line, result.status, 2);
        is(line, verdict(words[0], "", result).says, `The options can't be read: ${last.replace(/^pciex: /, "")}`);
    }
}

// The table of options is that of the program's help: the same options, each with its default and its values.
function options() {
    for (const [command, all] of Object.entries(OPTIONS)) {
        const help = run([command, "--help"]).output.replace(/\n +(?=[^ -])/g, " ");
        const said = new Map([...help.matchAll(/^ +--([a-z-]+)( <[A-Z]+>)?(.*)$/gm)].map(([, name, value, rest]) => [name, { isFlag: !value, rest }]));
        for (const name of UNSHOWN[command] || []) is(`${command} --${name}: in the help`, said.delete(name), true);
        is(`${command}: options`, all.map(({ name }) => name).sort(), [...said.keys()].sort());
        const needed = all.filter(({ must }) => must).flatMap(({ name, is: value }) => [`--${name}`, value]);
        for (const { name, is: value, kind, must, values, takes = "" } of all.filter(({ name }) => said.has(name))) {
            const { isFlag, rest } = said.get(name), [, usual] = rest.match(/\[default: ([^\]]*)\]/) || [];
            is(`${command} --${name}: a flag`, kind === "flag", isFlag);
            if (kind === "flag" || must) continue;
            is(`${command} --${name}: default`, value, usual && /^\S+$/.test(usual) ? usual : "");
            const numbers = (takes.match(/\b\d{3,}\b/g) || []).filter((number) => !rest.includes(number));
            is(`${command} --${name}: range`, numbers, []);
            // each choice is one that the program takes
            for (const one of (values || []).filter((word) => word !== value)) {
                is(`${command} --${name} ${one}`, run([command, ...needed, `--${name}`, one]).status === 2, false);
            }
        }
    }
}

// Each form of a line is one that the program reads, and each output may be handed on to a subcommand that reads it.
function linesAndHands() {
    for (const [command, all] of Object.entries(FORMS)) {
        if (["check", "upgrade", "search"].includes(command)) {
            // (of a log the version in which a reply may be done, and that reply alone)
            const text = all.map(([form]) => form.replace("pciex-log 1", "pciex-log 2")).filter((form) => form !== "ans 1 0 data 00000000").join("\n") + "\n";
            is(`${command}: its forms are a text`, run([command], text).status, 0);
            continue;
        }
        const head = command === "step" ? FORMS.step[0][0] + "\n" : "";
        for (const [form] of all.slice(head === "" ? 0 : 1)) {
            const words = command === "endpoint" ? ["endpoint", "--trace", ...(/^(packet|dllp|up)\b/.test(form) ? ["--link"] : [])] : [command];
            is(`${command}: ${form}`, /^fault/m.test(run(words, head + form + "\n").output), false);
        }
    }
    for (const [command, hands] of Object.entries(HANDS)) for (const { says, to } of hands) is(`${command}: ${says}`, to in MODES, true);
}

for (const [name, text] of texts()) for (const words of COMMANDS) each(name, text, words);
places();
forms();
wrongOptions();
options();
linesAndHands();
console.log(`page: what is said in words: ${rows} rows, ${failed === 0 ? "each as the program prints it" : `${failed} differ`}`);
process.exit(failed ? 1 : 0);
