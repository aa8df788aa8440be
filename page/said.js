// What a result says, in words: the verdict, the lines to mark, and the results beside their lines. Nothing here needs a page.
"use strict";

// The lines of a text that the program reads, with their numbers: empty lines and comments are skipped.
function readLines(text) {
    return text.split("\n").map((line, index) => ({ number: index + 1, line: line.replace(/\r$/, "") }))
        .filter(({ line }) => line !== "" && !line.startsWith("#"));
}

const linesOf = (output) => (output === "" ? [] : output.replace(/\n$/, "").split("\n"));
const firstOf = (output) => output.slice(0, (output + "\n").indexOf("\n"));
const lastOf = (output) => output.slice(output.lastIndexOf("\n", output.length - 2) + 1).replace(/\n$/, "");

function countOf(output) {
    let count = 0;
    for (let at = output.indexOf("\n"); at >= 0; at = output.indexOf("\n", at + 1)) count += 1;
    return count;
}

const count = (number, one) => `${number.toLocaleString("en")} ${one}${number === 1 ? "" : "s"}`;
const list = (words) => (words.length < 2 ? words.join("") : `${words.slice(0, -1).join(", ")} and ${words[words.length - 1]}`);
const linesNamed = (numbers) => `${numbers.length === 1 ? "line" : "lines"} ${list(numbers)}`;

// What a text is called that a subcommand reads.
const TEXTS = { step: "script", check: "trace", upgrade: "trace", search: "log" };

// The line that a reason is of: `line 7: ..`, or `record 3 is line 7: ..`. None if it is of no line.
function lineOf(reason) {
    const found = reason.match(/^pciex: (?:(?:record|entry) \d+ is )?line (\d+)(?=[,:])/);
    return found ? Number(found[1]) : null;
}

// The place of a record or an entry, and its line if a reason says it.
function placed(what, number, errors) {
    const line = linesOf(errors).map(lineOf).find((one) => one !== null);
    return `${what} ${number}${line ? `, line ${line}` : ""}`;
}

// The verdict: `is` good, bad, unsure or plain; `says` a sentence; `name` what the program prints for it.
function verdict(command, text, { status, output, errors }) {
    if (status === 2) return { is: "bad", says: `The options can't be read: ${optionsReason(errors)}`, name: "" };
    if (errors.includes("pciex: memory")) return { is: "unsure", says: "Memory ran out, and nothing is known.", name: "" };
    if (command in TEXTS) return ofText(command, text, { status, output, errors });
    if (command === "generate") return { is: "good", says: `A script of ${count(Math.max(0, countOf(output) - 1), "event")}.`, name: "" };
    return ofLines(command, text, { output, errors });
}

function optionsReason(errors) {
    const reason = linesOf(errors).find((line) => line !== "pciex: options") || errors;
    return reason.replace(/^(pciex|error): /, "");
}

// The verdict of a subcommand whose input is one text.
function ofText(command, text, { status, output, errors }) {
    const last = lastOf(output), [word, number, name, index] = last.split(" ");
    if (text.trim() === "") return { is: "plain", says: `There is no ${TEXTS[command]} yet: write one, choose an example, or open a file.`, name: last };
    if (word === "fault") return { is: "bad", says: `Line ${number} can't be read as a line of a ${TEXTS[command]}.`, name: last };
    if (word === "flaw") {
        const where = placed(["Stranger", "Twice", "Order"].includes(name) ? "entry" : "record", index, errors);
        const what = command === "search" ? "The log's bookkeeping is wrong" : "This history doesn't explain the trace";
        return { is: "bad", says: `${what}: ${where}.`, name: last };
    }
    if (command === "search") return ofSearch(output, errors);
    if (command === "step") return ofScript(status, text, output, errors);
    if (command === "upgrade") return { is: "good", says: "The trace in version 2, unchecked.", name: "" };
    return { is: "good", says: `This history explains the trace.${errors ? " The order between requesters isn't checked." : ""}`, name: last };
}

function ofSearch(output, errors) {
    const first = firstOf(output), [word, number] = first.split(" ");
    if (word === "none") return { is: "bad", says: `No history explains this log: ${placed("record", number, errors)}.`, name: first };
    if (word === "limit") return { is: "unsure", says: `Given up after ${count(Number(number), "choice")}: nothing is known.`, name: first };
    if (word === "work") return { is: "unsure", says: `Given up after this much work, ${Number(number).toLocaleString("en")}: nothing is known.`, name: first };
    if (word === "pciex-log") {
        const records = linesOf(output).filter((line) => /^(sub|ans) /.test(line)).length;
        return { is: "bad", says: `No history explains these ${count(records, "record")}, nor the whole log.`, name: "a log" };
    }
    const entries = linesOf(output).filter((line) => line.startsWith("ent ")).length;
    return { is: "good", says: `A history explains this log: ${count(entries, "request")} acted.`, name: "a trace" };
}

function ofScript(status, text, output, errors) {
    const all = linesOf(output).map((line) => line.replace(/^.* -> /, ""));
    const refused = all.filter((line) => line.startsWith("refused "));
    if (refused.length === 1) {
        const [, line, name] = refused[0].match(/^refused (\d+) (.*)/);
        const [, meaning] = errors.match(/ is refused: [^(]*\((.*)\)$/m) || [];
        return { is: "bad", says: `Line ${line} is refused: ${meaning || name}.`, name: refused[0] };
    }
    if (status !== 0) return { is: "bad", says: `${count(refused.length, "event")} of the script are refused.`, name: "refused" };
    if (readLines(text).length === 0) return { is: "plain", says: "There is no script yet: every line is a comment.", name: "" };
    return { is: "good", says: `The script ran to its end: ${count(all.filter((line) => line.startsWith("ans ")).length, "answer")}.`, name: "" };
}

// The verdict of a subcommand that answers each line by itself.
function ofLines(command, text, { output, errors }) {
    const asked = readLines(text).length;
    if (asked === 0) return { is: "plain", says: "There is no line yet: write one, choose an example, or open a file.", name: "" };
    const [what, done] = { tlp: ["request", "answered"], decode: ["packet", "in words"], encode: ["packet", "in bytes"], endpoint: ["line", "taken"] }[command];
    const faults = linesOf(output).filter((line) => line.startsWith("fault")).length;
    if (faults === 0) return { is: "good", says: asked === 1 ? `The ${what} is ${done}.` : `All ${count(asked, what)} are ${done}.`, name: "" };
    const where = [...marks(command, { status: 1, output, errors })].filter(([, kind]) => kind === "wrong").map(([number]) => number);
    const which = where.length === faults && faults <= 5 ? `: ${linesNamed(where)}` : "";
    return { is: "bad", says: `${faults.toLocaleString("en")} of ${count(asked, "line")} ${faults === 1 ? "has" : "have"} a fault${which}.`, name: "" };
}

// The lines that reasons name: `wrong` is to be mended, or can't be so; `named` stands beside it, or is only to be looked at.
function marks(command, { status, output, errors }) {
    const found = new Map();
    const put = (number, kind) => found.has(number) || found.set(number, kind);
    const isOne = command === "search" && /^(none |pciex-log)/.test(output);
    for (const reason of linesOf(errors).slice(0, 2000)) {
        const line = lineOf(reason);
        if (line !== null) put(line, status === 0 || (isOne && found.size > 0) ? "named" : "wrong");
        // (what it quotes is the text's own)
        for (const [, first, between, second] of reason.replace(/: '.*' (?=where |is refused)/, "").matchAll(/\blines? (\d+)(?: (to|and) (\d+))?/g)) {
            if (between === "to") continue; // a part of the text, and not two lines
            put(Number(first), "named");
            if (second) put(Number(second), "named");
        }
    }
    return found;
}

// The results of each line: [{ number, line, results }].
function beside(command, text, output) {
    const results = linesOf(output), rows = [];
    let next = 0;
    for (const { number, line } of readLines(text)) {
        if (next >= results.length) break;
        const row = { number, line, results: [] };
        rows.push(row);
        if (command === "step") next = besideEvent(row, results, next);
        else {
            do row.results.push(results[next++]);
            while (row.results[0].startsWith("pciex-trace") && next < results.length && results[next - 1] !== "end");
        }
    }
    return rows;
}

// Of a line of a script: its results, which stand behind ` -> `, or its fault. Gives the index of the next result.
function besideEvent(row, results, next) {
    const fault = results[next].match(/^fault (\d+) /);
    if (fault) {
        if (Number(fault[1]) !== row.number) return next;
        row.results.push(results[next]);
        return next + 1;
    }
    const head = row.line + " -> ";
    while (next < results.length && results[next].startsWith(head)) {
        row.results.push(results[next++].slice(head.length));
        // a `settle` has many results, the last of them `settled`; each other event has one
        if (row.line !== "settle" || row.results[row.results.length - 1] === "settled") break;
    }
    return next;
}

// A word of a command line, with quotes only where a shell needs them.
const shellWord = (word) => (/^[A-Za-z0-9_.,:=@%+/-]+$/.test(word) ? word : "'" + word.replace(/'/g, "'\\''") + "'");

if (typeof module === "object") module.exports = { readLines, linesOf, lineOf, verdict, marks, beside, shellWord };
