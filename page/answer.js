// What comes of a run: the verdict, the reasons, the results, and what may become of them. What is long is cut.

const SHOWN_LINES = 2000, SHOWN_BYTES = 200000, SHOWN_ROWS = 500, SHOWN_REASONS = 60;

const at = (id) => document.getElementById(id);
const made = (name, properties = {}, ...children) => {
    const element = Object.assign(document.createElement(name), properties);
    element.append(...children);
    return element;
};
const button = (words, act, name) => {
    const element = made("button", { type: "button", textContent: words });
    if (name) element.setAttribute("aria-label", name);
    element.addEventListener("click", act);
    return element;
};
const size = (bytes) => (bytes < 1000 ? `${bytes} bytes` : bytes < 1e6 ? `${(bytes / 1e3).toFixed(1)} kB` : `${(bytes / 1e6).toFixed(1)} MB`);

function showVerdict(is, says, detail = "") {
    at("verdict-box").dataset.is = is;
    if (at("verdict").textContent !== says) at("verdict").textContent = says;
    at("detail").textContent = detail;
}

function clearResults() {
    for (const id of ["reasons", "beside", "printed"]) at(id).hidden = true;
    at("hands").replaceChildren();
    at("output").textContent = "";
    at("beside").querySelector("tbody").replaceChildren();
    at("marked").textContent = "";
}

// { command, text, result, took, rows }: rows are the results beside their lines, where the subcommand has them.
function showAnswer({ command, text, result, took, rows }, editor, hands) {
    clearResults();
    const said = verdict(command, text, result);
    showVerdict(said.is, said.says, [said.name, `exit status ${result.status}`, `${(took / 1000).toFixed(2)} s`].filter((one) => one).join(" · "));
    const isRead = result.status !== 2; // else the options were wrong, and nothing was read
    const found = isRead ? marks(command, result) : new Map();
    editor.mark(found);
    at("marked").textContent = markedWords(found);
    const [wrong] = [...found].find(([, kind]) => kind === "wrong") || [];
    if (wrong && document.activeElement !== editor.area) editor.show(wrong);
    at("hands").replaceChildren(...hands);
    if (isRead) showReasons(result.errors, editor);
    if (rows && isRead) showBeside(command, rows, result.output, editor);
    else showOutput(result.output, said.name);
}

function markedWords(found) {
    const of = (kind) => [...found].filter(([, one]) => one === kind).map(([number]) => number).sort((one, other) => one - other);
    const say = (numbers) => `${numbers.length === 1 ? "line" : "lines"} ${numbers.slice(0, 12).join(", ")}${numbers.length > 12 ? " and more" : ""}`;
    const said = [["wrong", "in red"], ["named", "in blue"]].filter(([kind]) => of(kind).length > 0).map(([kind, how]) => `${say(of(kind))} ${how}`);
    return said.length === 0 ? "" : `Marked: ${said.join("; ")}.`;
}

// A text in which each number of a line is a button that goes there.
function withLines(text, where, editor) {
    const columns = new Map([...text.matchAll(/line (\d+), column (\d+)/g)].map(([, line, column]) => [line, Number(column)]));
    for (const part of text.split(/(\blines? \d+(?:(?: to | and )\d+)?)/)) {
        const isLine = /^lines? \d/.test(part);
        for (const bit of isLine ? part.split(/(\d+)/) : [part]) {
            where.append(isLine && /^\d+$/.test(bit) ? button(bit, () => editor.go(Number(bit), columns.get(bit)), `go to line ${bit}`) : bit);
        }
    }
    return where;
}

function showReasons(errors, editor) {
    const reasons = linesOf(errors);
    at("reasons").hidden = reasons.length === 0;
    const items = reasons.slice(0, SHOWN_REASONS).map((reason) => withLines(reason.replace(/^pciex: /, ""), made("li"), editor));
    if (reasons.length > SHOWN_REASONS) items.push(made("li", { textContent: `and ${reasons.length - SHOWN_REASONS} more` }));
    at("reasons").querySelector("ol").replaceChildren(...items);
}

const isWrong = (result) => /^(fault|refused|accept (Malformed|Unsupported|Unexpected|Overflow)|error|nak|quiet)\b/.test(result);
const isAnswer = (result) => /^(ans|tlp|completion) /.test(result);

function showBeside(command, rows, output, editor) {
    at("beside").hidden = rows.length === 0;
    const [title, left, right] = MODES[command].beside;
    at("beside-name").textContent = title;
    const [, one, two] = at("beside").querySelectorAll("th");
    [one.textContent, two.textContent] = [left, right];
    at("beside").querySelector("tbody").replaceChildren(...rows.slice(0, SHOWN_ROWS).map(({ number, line, results, words, said = [] }) => {
        const asked = made("td", { textContent: line }), got = made("td");
        if (words) asked.append(made("small", { textContent: words }));
        for (const [index, part] of results.slice(0, SHOWN_ROWS).entries()) {
            got.append(made("div", { textContent: part, className: isWrong(part) ? "wrong" : isAnswer(part) ? "answer" : "" }));
            if (said[index]) got.append(made("small", { textContent: said[index] }));
        }
        return made("tr", {}, made("td", {}, button(number, () => editor.go(number), `go to line ${number}`)), asked, got);
    }));
    const isCut = rows.length > SHOWN_ROWS;
    at("printed").hidden = !isCut;
    at("output").hidden = true;
    showCut(isCut ? `The first ${SHOWN_ROWS} of ${rows.length.toLocaleString("en")} lines are shown. “Save” writes them all, ${size(output.length)}.` : "");
}

function showOutput(output, name) {
    at("printed").hidden = output === "" || output === name + "\n";
    at("output").hidden = false;
    let end = Math.min(output.length, SHOWN_BYTES);
    for (let line = 0, next = 0; line < SHOWN_LINES && next < end; line += 1) {
        next = output.indexOf("\n", next) + 1;
        if (next === 0) break;
        if (line === SHOWN_LINES - 1) end = Math.min(end, next);
    }
    at("output").textContent = output.slice(0, end);
    showCut(end < output.length ? `${size(end)} of ${size(output.length)} are shown. “Save” writes them all.` : "");
}

function showCut(note) {
    at("cut").hidden = note === "";
    at("cut").textContent = note;
}

let telling = null;
function tell(words) {
    clearTimeout(telling);
    at("told").textContent = words;
    telling = setTimeout(() => { at("told").textContent = ""; }, 6000);
}
