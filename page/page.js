// The page: what is typed is run at once, in a worker, and what comes of it is said.

const LIMITS = { usual: 10000, patient: 60000 }; // milliseconds of a run, and of one that was asked to go on
const SOON = 300; // milliseconds after which a run is shown as one that is going on
const NARROW = matchMedia("(max-width: 55rem)");
const IN_ADDRESS = 60000, IN_EDITOR = 2000000; // characters of a text

const { of: EXAMPLES, pages: PAGES } = JSON.parse(at("examples-of").textContent);
const runner = new Runner(
    Uint8Array.from(atob(at("program").textContent.trim()), (character) => character.charCodeAt(0)),
    URL.createObjectURL(new Blob([at("worker").textContent], { type: "text/javascript" })),
);
const editor = new Editor(at("text"), at("gutter"), at("bands"));
const picture = new Picture(at("paper"), at("scale"), at("fit"));

// What is asked: the subcommand, and of each one its text and its options. An option that isn't there has the page's own value.
const state = { command: "step", texts: {}, options: {} };
// What came of it: { command, text, result, took, rows, drawn, isWhole }. None while a run goes on.
let last = null;

// ---- Options, as words

const optionsOf = (command) => OPTIONS[command] || [];
function valueOf(command, option, own = state.options[command] || {}) {
    const set = SET[command] || {};
    return option.name in own ? own[option.name] : option.name in set ? set[option.name] : option.is;
}
const isThere = (command, option, own) => !option.needs || valueOf(command, optionsOf(command).find(({ name }) => name === option.needs), own);

function optionWords(command, own) {
    return optionsOf(command).filter((option) => isThere(command, option, own)).flatMap((option) => {
        const value = valueOf(command, option, own);
        if (option.kind === "flag") return value ? ["--" + option.name] : [];
        const word = String(value).trim();
        return option.must || (word !== option.is && word !== "") ? ["--" + option.name, word] : [];
    });
}
const isShown = ({ text, options }) => text === textOf() && String(optionWords(state.command, options)) === String(optionWords(state.command));

// The command lines that are run: that of the subcommand, and that of the picture, if it has one.
function commandLines() {
    const { command } = state, { always = [], draws } = MODES[command];
    const words = optionWords(command);
    const drawn = draws === command ? [command, ...words.filter((word) => word !== "--core"), "--draw"] : draws && [draws, ...optionWords(draws)];
    return { first: [command, ...always, ...words], drawn };
}

function shownWords() {
    const { first, drawn } = commandLines(), { text, task } = MODES[state.command];
    const file = text ? ` ${task.name}.txt` : "";
    const said = ["pciex " + first.map(shellWord).join(" ") + (file || " > script.txt")];
    if (drawn) said.push("pciex " + drawn.map(shellWord).join(" ") + file + " > picture.svg");
    return said.join("\n");
}

// ---- Controls

function control(command, option) {
    const id = `${command}-${option.name}`, value = valueOf(command, option);
    const label = made("label", { htmlFor: id }), box = made("div", { className: `option ${option.kind}`, hidden: !isThere(command, option) }, label);
    const input = option.kind === "flag" ? made("input", { id, type: "checkbox", checked: value })
        : option.kind === "choice" ? made("select", { id }, ...option.values.map((one) => new Option(one || "all", one)))
            : made("input", { id, type: "text", autocomplete: "off", spellcheck: false, placeholder: option.is });
    if (option.kind === "flag") label.append(input, option.says);
    else {
        label.textContent = option.says;
        input.value = value;
        box.append(input);
    }
    if (option.takes) {
        box.append(made("p", { className: "quiet", id: id + "-takes", textContent: option.takes }));
        input.setAttribute("aria-describedby", id + "-takes");
    }
    input.addEventListener("input", () => {
        const own = state.options[command] = state.options[command] || {};
        own[option.name] = option.kind === "flag" ? input.checked : input.value;
        for (const other of optionsOf(command)) at(`${command}-${other.name}`).closest(".option").hidden = !isThere(command, other);
        changed();
    });
    return box;
}

function showControls(form, command, rare) {
    const of = (isRare) => optionsOf(command).filter((option) => Boolean(option.isRare) === isRare).map((option) => control(command, option));
    form.replaceChildren(...of(false));
    const others = of(true);
    if (others.length > 0) form.append(made("details", {}, made("summary", { textContent: rare }), made("div", { className: "bounds" }, ...others)));
}

const pageLink = (page, words) => (PAGES ? made("a", { href: PAGES + page, textContent: words }) : made("code", { textContent: page.replace(/#.*/, "") }));

// Builds what belongs to the task anew.
function show() {
    const mode = MODES[state.command], { task, draws } = mode;
    for (const tab of at("tabs").children) {
        const isIt = tab.id === "tab-" + task.name;
        tab.setAttribute("aria-selected", isIt);
        tab.tabIndex = isIt ? 0 : -1;
        if (isIt) at("panel").setAttribute("aria-labelledby", tab.id);
    }
    at("about").replaceChildren(task.about, ...(PAGES ? [" ", pageLink("docs/" + task.page, "More")] : []));
    at("modes").hidden = task.modes.length < 2;
    at("modes").replaceChildren(...task.modes.map(({ command, title }) => {
        const input = made("input", { type: "radio", name: "mode", value: command, checked: command === state.command });
        input.addEventListener("change", () => {
            go(command);
            at("modes").querySelector(":checked").focus();
        });
        return made("label", {}, input, " " + title);
    }));
    const examples = EXAMPLES[state.command].map(({ name, text, options }, index) => button(name, () => {
        take(state.command, text, options);
        at("examples").querySelectorAll("button")[index].focus();
    }));
    at("examples").replaceChildren(made("span", { textContent: "Examples:" }), ...examples);
    at("editing").hidden = !mode.text;
    at("text-name").textContent = mode.text || "";
    const forms = (FORMS[state.command] || [])
        .map(([form, says]) => made("li", {}, button(form, () => editor.insert(form)), made("span", { textContent: says })));
    at("forms").hidden = forms.length === 0;
    at("forms").querySelector("summary").textContent = task.forms || "";
    at("forms").querySelector("ul").replaceChildren(...forms);
    showControls(at("options"), state.command, "Bounds");
    showControls(at("drawing"), draws && draws !== state.command ? draws : "", "A part of it");
    at("picture").hidden = !draws;
    placeRest();
    editor.set(textOf());
    settled();
}

function textOf() {
    if (!(state.command in state.texts)) state.texts[state.command] = EXAMPLES[state.command][0].text;
    return state.texts[state.command];
}

// ---- What changes

let pause = null;
function changed() {
    clearTimeout(pause);
    stale();
    pause = setTimeout(settled, textOf().length > 50000 ? 600 : 150);
}

// Browsers refuse an address that changes too often: then it has an older text.
function remember(how) {
    try {
        history[how](null, "", link());
    } catch {
        return;
    }
}

function settled() {
    clearTimeout(pause);
    remember("replaceState");
    at("words").textContent = shownWords();
    const choices = at("examples").querySelectorAll("button");
    for (const [index, example] of EXAMPLES[state.command].entries()) choices[index].setAttribute("aria-pressed", isShown(example));
    run();
}

// The browser's way back leads to what stands here now.
function leave() {
    remember("replaceState");
    remember("pushState");
}

function go(command) {
    leave();
    state.command = command;
    show();
}

function take(command, text, options = {}) {
    if (text.length > IN_EDITOR) {
        tell(`${size(text.length)} are too much for this page, which takes ${size(IN_EDITOR)}. The program takes any length.`);
        return;
    }
    leave();
    state.command = command;
    state.texts[command] = text;
    state.options[command] = { ...options };
    show();
}

// The subcommand, its options and those of its picture, and the text, in the address.
function link() {
    const { command } = state, values = new URLSearchParams({ do: command });
    for (const one of new Set([command, MODES[command].draws])) {
        for (const [name, value] of Object.entries(state.options[one] || {})) values.set(one === command ? name : `${one}.${name}`, value);
    }
    if (MODES[command].text && textOf().length <= IN_ADDRESS) values.set("text", textOf());
    return "#" + values;
}

function fromAddress() {
    const values = new URLSearchParams(location.hash.slice(1)), command = values.get("do");
    if (command && Object.hasOwn(MODES, command)) {
        state.command = command;
        for (const one of new Set([command, MODES[command].draws])) {
            const own = state.options[one] = {};
            for (const option of optionsOf(one)) {
                const value = values.get(one === command ? option.name : `${one}.${option.name}`);
                if (value !== null) own[option.name] = option.kind === "flag" ? value === "true" : value;
            }
        }
        if (values.has("text")) state.texts[command] = values.get("text");
    }
    show();
}

// ---- A run

let turn = 0, clock = null;

// What is shown is of another text, or of other options: it is grey, and can't be used.
function stale() {
    last = null;
    turn += 1;
    runner.stop("something changed");
    clearInterval(clock);
    at("stop").hidden = at("longer").hidden = true;
    at("verdict-box").dataset.is = "plain";
    at("answered").setAttribute("aria-busy", "true");
    for (const id of ["results", "paper", "sizes"]) at(id).inert = true;
    at("picture").setAttribute("aria-busy", "true");
    at("marked").textContent = "";
    editor.mark(new Map());
}

// Shows how long a run takes, and ends one that is too long. `soon` is done once it takes longer than a moment.
function watch(longest, soon) {
    const began = performance.now();
    let isShown = false;
    clearInterval(clock);
    clock = setInterval(() => {
        const took = performance.now() - began;
        if (took < SOON) return;
        if (!isShown) soon();
        isShown = true;
        at("stop").hidden = false;
        at("detail").textContent = `${(took / 1000).toFixed(1)} s of ${longest / 1000} s`;
        if (took > longest) runner.stop("long");
    }, 100);
}

function ended() {
    clearInterval(clock);
    at("stop").hidden = true;
}

function answered() {
    ended();
    at("answered").removeAttribute("aria-busy");
    at("results").inert = false;
}

// What a run says that was ended, or broke off.
function brokeOff(error, longest, what) {
    at("longer").hidden = error.message !== "long" || longest === LIMITS.patient;
    if (error.message === "long") return `${what} stopped after ${longest / 1000} seconds.`;
    return error.isStopped ? `${what} stopped.` : `${what} broke off: ${error.message}`;
}

async function run(longest = LIMITS.usual) {
    stale();
    const mine = turn, { command } = state, text = MODES[command].text ? textOf() : "";
    const { first, drawn } = commandLines(), began = performance.now();
    watch(longest, () => {
        clearResults(); // no old result stands beside a new text
        picture.clear();
        showVerdict("plain", "Running.");
    });
    try {
        const result = await runner.ask(first, text);
        const answer = { command, text, result, took: performance.now() - began };
        if (MODES[command].beside) answer.rows = beside(command, text, result.output);
        if (["tlp", "endpoint"].includes(command)) await sayRows(answer.rows.slice(0, SHOWN_ROWS));
        answered();
        last = answer;
        showAnswer(answer, editor, handsOf(answer));
        showWrongOptions(command, result);
    } catch (error) {
        if (mine !== turn) return;
        answered();
        clearResults();
        noPicture("");
        showVerdict(error.isStopped ? "unsure" : "bad", brokeOff(error, longest, "The run") + (error.isStopped ? " Nothing is known." : ""));
        return;
    }
    if (drawn) await draw(last, drawn, longest, mine);
    if (mine === turn) last.isWhole = true;
}

async function draw(answer, words, longest, mine) {
    const detail = at("detail").textContent;
    watch(longest, () => noPicture("Drawing."));
    try {
        answer.drawn = await runner.ask(words, answer.text);
        if (answer.drawn.output.startsWith("<svg")) showPicture(answer.drawn.output);
        else noPicture(answer.drawn.status === 2 ? `There is no picture: ${optionsReason(answer.drawn.errors)}.` : "There is no picture of this.");
        showWrongOptions(words[0], answer.drawn, at("drawing"));
    } catch (error) {
        if (mine !== turn) return;
        noPicture(brokeOff(error, longest, "The drawing"));
    }
    ended();
    at("detail").textContent = detail;
}

function showPicture(svg) {
    at("picture").removeAttribute("aria-busy");
    at("undrawn").hidden = true;
    at("paper").hidden = at("paper").inert = at("sizes").hidden = at("sizes").inert = false;
    picture.show(svg);
    // Beside the text if it is as narrow as that, else below both.
    const isTight = at("answered").clientWidth < .75 * picture.wide && !NARROW.matches;
    const place = at(isTight ? "panel" : "answered");
    if (at("picture").parentElement !== place) move(at("picture"), () => place.append(at("picture")));
}

function noPicture(why) {
    picture.clear();
    at("picture").removeAttribute("aria-busy");
    at("paper").hidden = at("sizes").hidden = true;
    at("undrawn").hidden = why === "";
    at("undrawn").textContent = why;
}

// Moves an element without the loss of the keyboard's focus.
function move(element, place) {
    const focused = element.contains(document.activeElement) ? document.activeElement : null;
    place();
    if (focused) focused.focus();
}

// Marks the field of an option that was refused.
function showWrongOptions(command, { status, errors }, form = at("options")) {
    for (const input of form.querySelectorAll("[aria-invalid]")) input.removeAttribute("aria-invalid");
    const [, name] = (status === 2 && errors.match(/(?:for|pciex:) --([a-z]+)/)) || [];
    if (name && at(`${command}-${name}`)) at(`${command}-${name}`).setAttribute("aria-invalid", "true");
}

// The packets in these rows, in words.
async function sayRows(rows) {
    const digits = (line) => (line.match(/^(?:tlp )?([0-9A-Fa-f ]+)$/) || [])[1];
    const packets = rows.flatMap(({ line, results }) => [line, ...results]).map(digits).filter((packet) => packet);
    if (packets.length === 0) return;
    const said = linesOf((await runner.ask(["decode"], packets.join("\n") + "\n")).output);
    const next = (line) => {
        const words = digits(line) ? said.shift() || "" : "";
        return words.startsWith("fault") ? "" : words;
    };
    for (const row of rows) {
        row.words = next(row.line);
        row.said = row.results.map(next);
    }
}

// What may become of this answer, as buttons.
function handsOf(answer) {
    return (HANDS[answer.command] || []).filter(({ when }) => when(answer.result)).map((hand) => button(hand.says, async () => {
        let { result } = answer;
        if (hand.again) {
            const words = optionWords(answer.command).filter((word) => !hand.again.includes(word));
            result = await runner.ask([answer.command, ...hand.again, ...words], answer.text).catch(() => null);
        }
        if (result === null || (hand.isGood && !hand.isGood(result))) {
            tell(hand.otherwise || "The run was stopped.");
            return;
        }
        take(hand.to, hand.text({ ...result, text: answer.text }), hand.options);
        at("tab-" + MODES[hand.to].task.name).focus();
    }));
}

// ---- Files and words to copy

function save(name, text, type = "text/plain") {
    const address = URL.createObjectURL(new Blob([text], { type }));
    made("a", { href: address, download: name }).click();
    setTimeout(() => URL.revokeObjectURL(address), 10000);
}

async function copy(words, said) {
    try {
        await navigator.clipboard.writeText(words);
        tell(said);
    } catch {
        tell("The browser doesn't let the page copy.");
    }
}

// A file goes where its first line says that it belongs.
function commandOf(text) {
    const { line: first } = readLines(text)[0] || { line: "" };
    const { command } = state;
    if (/^pciex-log /.test(first)) return "search";
    if (/^pciex-trace /.test(first)) return ["search", "upgrade"].includes(command) ? command : "check";
    if (/^fabric /.test(first)) return "step";
    if (/^(tlp|up|next|packet|dllp|reset)( |$)/.test(first)) return "endpoint";
    if (/^[0-9A-Fa-f ]+$/.test(first)) return command === "decode" ? command : "tlp";
    return MODES[command].text ? command : "step";
}

async function openFile(file) {
    if (!file) return;
    if (file.size > IN_EDITOR) {
        tell(`${file.name} has ${size(file.size)}, and this page takes ${size(IN_EDITOR)}. The program takes any length.`);
        return;
    }
    const text = (await file.text()).replace(/\r\n/g, "\n");
    take(commandOf(text), text);
    tell(`${file.name} is open.`);
}

function hearFiles() {
    let over = 0;
    const isFile = (event) => event.dataTransfer && [...event.dataTransfer.types].includes("Files");
    const see = (change) => {
        over = Math.max(0, change);
        at("drop").hidden = over === 0;
    };
    addEventListener("dragenter", (event) => isFile(event) && see(over + 1));
    addEventListener("dragleave", (event) => isFile(event) && see(over - 1));
    addEventListener("dragover", (event) => isFile(event) && event.preventDefault());
    addEventListener("drop", (event) => {
        if (!isFile(event)) return;
        event.preventDefault();
        see(0);
        openFile(event.dataTransfer.files[0]);
    });
    at("open").addEventListener("click", () => at("file").click());
    at("file").addEventListener("change", () => {
        openFile(at("file").files[0]);
        at("file").value = "";
    });
    at("keep").addEventListener("click", () => save(MODES[state.command].task.name + ".txt", textOf()));
    at("save").addEventListener("click", () => last && save("output.txt", last.result.output));
    at("save-picture").addEventListener("click", () => save("picture.svg", picture.svg, "image/svg+xml"));
    at("copy-words").addEventListener("click", () => copy(at("words").textContent, "The command line is copied."));
    at("link").addEventListener("click", () => {
        if (textOf().length > IN_ADDRESS) tell(`A text of ${size(textOf().length)} is too long for a link. Save it as a file.`);
        else copy(location.href.replace(/#.*/, "") + link(), "The link is copied. It has the text and the options.");
    });
}

// ---- The beginning

function showTabs() {
    const tabs = TASKS.map(({ name, title, modes }) => {
        const tab = button(title, () => go(modes[0].command));
        tab.id = "tab-" + name;
        tab.setAttribute("role", "tab");
        tab.setAttribute("aria-controls", "panel");
        return tab;
    });
    at("tabs").append(...tabs);
    at("tabs").addEventListener("keydown", (event) => {
        const now = tabs.indexOf(document.activeElement);
        const to = { ArrowRight: now + 1, ArrowLeft: now - 1 + tabs.length, Home: 0, End: tabs.length - 1 }[event.key];
        if (to === undefined) return;
        event.preventDefault();
        tabs[to % tabs.length].focus();
        tabs[to % tabs.length].click();
    });
}

function hearPicture() {
    at("smaller").addEventListener("click", () => picture.zoomBy(.8));
    at("larger").addEventListener("click", () => picture.zoomBy(1.25));
    at("fit").addEventListener("click", () => picture.zoom(null));
    at("paper").addEventListener("keydown", ({ key }) => {
        if (key === "+") picture.zoomBy(1.25);
        if (key === "-") picture.zoomBy(.8);
        if (key === "0") picture.zoom(null);
    });
}

// In a narrow window the result stands right behind the text, and the options behind it: in the order of the keyboard, too.
function placeRest() {
    const isBehind = NARROW.matches && MODES[state.command].text;
    const place = at(isBehind ? "panel" : "asked");
    if (at("rest").parentElement === place) return;
    move(at("rest"), () => (isBehind ? at("answered").after(at("rest")) : place.append(at("rest"))));
}

function begin() {
    showTabs();
    hearFiles();
    hearPicture();
    NARROW.addEventListener("change", placeRest);
    at("pages").append(...(PAGES
        ? ["Begin with the ", pageLink("docs/tutorial.md", "tutorial"), "; ", pageLink("docs/formats.md", "formats"),
            " has every line and option; ", pageLink("README.md", "README"), " says what is proved."]
        : ["README.md of the project says what is proved; docs/tutorial.md is the way in."]));
    at("text").addEventListener("input", () => {
        state.texts[state.command] = at("text").value;
        changed();
    });
    // Both buttons go away when they are used: the focus goes to what they change.
    at("stop").addEventListener("click", () => {
        at("verdict-box").focus();
        runner.stop("stopped");
    });
    at("longer").addEventListener("click", () => {
        at("verdict-box").focus();
        run(LIMITS.patient);
    });
    at("skip").addEventListener("click", () => (MODES[state.command].text ? at("text") : at("options").querySelector("input")).focus());
    for (const form of [at("options"), at("drawing")]) form.addEventListener("submit", (event) => event.preventDefault());
    addEventListener("popstate", fromAddress);
    runner.ask(["--version"], "").then(({ output }) => { at("version").textContent = output.trim().split(" ")[1]; }).finally(fromAddress);
}

begin();
