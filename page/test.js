// For test.py, in the page: waits for answers, and looks at what stands there as someone with eyes, a keyboard or a screen reader would.
"use strict";

const pauseFor = (milliseconds) => new Promise((done) => setTimeout(done, milliseconds));

// On a machine that does much else a run takes its time.
LIMITS.usual = 1e9;

async function until(holds, what) {
    const end = performance.now() + 300000;
    while (!holds()) {
        if (performance.now() > end) throw new Error(`waited for: ${what || holds}`);
        await pauseFor(5);
    }
}
const answerIs = () => until(() => last !== null && last.isWhole, "an answer");

// What the page has of an answer, uncut, with the words that were run.
async function answerTo(command, text, options) {
    take(command, text, options);
    await answerIs();
    const { first, drawn } = commandLines();
    return { words: first, result: last.result, drawnWords: drawn || null, drawn: last.drawn ? last.drawn.output : "", text: last.text };
}

const isSeen = (element) => element.checkVisibility({ visibilityProperty: true, opacityProperty: true }) && element.getClientRects().length > 0;
function nameOf(element) {
    const words = (element.textContent || element.value || "").slice(0, 30);
    return `${element.tagName.toLowerCase()}${element.id ? "#" + element.id : ""} ${JSON.stringify(words)}`;
}

// ---- Colours

// `rgb(29 33 38 / 0.5)`, or `color(srgb 0.11 0.13 0.15 / 0.5)` where colours are mixed.
function colour(text) {
    const unit = text.startsWith("color(srgb") ? 255 : 1;
    const [red, green, blue, alpha = 1] = text.match(/[\d.]+/g).map(Number);
    return { red: red * unit, green: green * unit, blue: blue * unit, alpha };
}
function over(front, back) {
    const mixed = (name) => front[name] * front.alpha + back[name] * (1 - front.alpha);
    return { red: mixed("red"), green: mixed("green"), blue: mixed("blue"), alpha: 1 };
}
function luminance({ red, green, blue }) {
    const linear = (value) => (value / 255 <= .04045 ? value / 255 / 12.92 : ((value / 255 + .055) / 1.055) ** 2.4);
    return .2126 * linear(red) + .7152 * linear(green) + .0722 * linear(blue);
}
function contrast(one, other) {
    const [high, low] = [luminance(one), luminance(other)].sort((first, second) => second - first);
    return (high + .05) / (low + .05);
}
function groundOf(element) {
    if (!element) return colour("rgb(255, 255, 255)");
    const own = colour(getComputedStyle(element).backgroundColor);
    return own.alpha === 1 ? own : over(own, groundOf(element.parentElement));
}

function lowContrast() {
    const found = [];
    for (const element of document.body.querySelectorAll("*")) {
        if (element.closest("svg, script, [inert], [aria-busy=true]") || !isSeen(element)) continue;
        const isField = element.matches("select, textarea, input[type=text]") && element.value !== "";
        const hasText = isField || [...element.childNodes].some((node) => node.nodeType === Node.TEXT_NODE && node.textContent.trim() !== "");
        const style = getComputedStyle(element), ground = groundOf(element);
        if (hasText) {
            const points = parseFloat(style.fontSize), least = points >= 24 || (points >= 18.66 && Number(style.fontWeight) >= 700) ? 3 : 4.5;
            const ratio = contrast(over(colour(style.color), ground), ground);
            if (ratio < least) found.push(`${nameOf(element)} has a contrast of ${ratio.toFixed(2)}`);
        }
        if (element.matches("input, select, button") && parseFloat(style.borderTopWidth) > 0) {
            const around = groundOf(element.parentElement), ratio = contrast(over(colour(style.borderTopColor), around), around);
            const isRight = element.getAttribute("role") === "tab" || ratio >= 3;
            if (!isRight) found.push(`the border of ${nameOf(element)} has a contrast of ${ratio.toFixed(2)}`);
        }
    }
    // Lines that are marked, under the text's colour.
    const ink = colour(getComputedStyle(at("text")).color), paper = groundOf(at("editor"));
    for (const band of at("bands").children) {
        const ratio = contrast(ink, over(colour(getComputedStyle(band).backgroundColor), paper));
        if (ratio < 4.5) found.push(`a marked line has a contrast of ${ratio.toFixed(2)}`);
    }
    return found;
}

// ---- Places

const CONTROLS = "button, input, select, textarea, summary, a[href], [tabindex='0']";

function badPlaces() {
    const found = [], wide = document.documentElement.clientWidth;
    if (document.scrollingElement.scrollWidth > wide) found.push(`the page is ${document.scrollingElement.scrollWidth} pixels wide, and the window ${wide}`);
    const controls = [...document.querySelectorAll(CONTROLS)].filter((element) => isSeen(element) && !element.closest("svg"));
    const boxes = controls.map((element) => element.getBoundingClientRect());
    for (const [index, element] of controls.entries()) {
        const box = boxes[index];
        if (element.matches("#skip")) continue;
        const isScrolled = element.closest(".scroll, pre") && !element.matches(".scroll, pre");
        if (box.left < 0 || box.right > wide + .5) found.push(`${nameOf(element)} goes from ${Math.round(box.left)} to ${Math.round(box.right)} of ${wide}`);
        const isCut = element.scrollWidth > element.clientWidth + 1 || element.scrollHeight > element.clientHeight + 1;
        if (element.matches("button, summary") && element.clientWidth > 0 && isCut) found.push(`${nameOf(element)} is cut`);
        const isInline = element.closest("#reasons, a, .scroll") || element.matches("summary, input");
        if (!isInline && (box.width < 24 || box.height < 24)) found.push(`${nameOf(element)} has ${Math.round(box.width)} x ${Math.round(box.height)} pixels`);
        for (let next = index + 1; next < controls.length && !isScrolled; next += 1) {
            const other = boxes[next], one = controls[next];
            if (element.contains(one) || one.contains(element) || one.closest(".scroll")) continue;
            const high = Math.min(box.bottom, other.bottom) - Math.max(box.top, other.top);
            const broad = Math.min(box.right, other.right) - Math.max(box.left, other.left);
            if (high > 1 && broad > 1) found.push(`${nameOf(element)} and ${nameOf(one)} overlap`);
        }
    }
    // Text that stands outside of its box, or on another text.
    for (const element of document.querySelectorAll("p, h1, h2, label, li, td, th, summary, button")) {
        if (!isSeen(element)) continue;
        const box = element.getBoundingClientRect(), range = document.createRange();
        range.selectNodeContents(element);
        for (const line of range.getClientRects()) {
            const isOutside = line.left < box.left - 2 || line.right > box.right + 2;
            if (line.width > 0 && isOutside) found.push(`the text of ${nameOf(element)} stands outside of its box`);
        }
    }
    return [...new Set(found)];
}

// ---- The keyboard

// Where the focus is, whether it can be seen there, and whether it is in the window.
function focusNow() {
    const element = document.activeElement;
    if (element === document.body) return null;
    const shown = element.id === "text" ? at("editor") : element, style = getComputedStyle(shown), box = shown.getBoundingClientRect();
    const isDrawn = style.outlineStyle !== "none" && parseFloat(style.outlineWidth) >= 2;
    return {
        name: nameOf(element),
        isOutlined: isDrawn && contrast(colour(style.outlineColor), groundOf(shown.parentElement)) >= 3,
        isThere: box.width > 0 && box.bottom > 0 && box.top < innerHeight && box.right > 0 && box.left < innerWidth,
    };
}

// The longest time in which the page does nothing, while something goes on.
async function longestGap(start, isOver) {
    let before = performance.now(), longest = 0;
    const clock = setInterval(() => {
        longest = Math.max(longest, performance.now() - before);
        before = performance.now();
    }, 10);
    start();
    await until(isOver);
    await new Promise((done) => requestAnimationFrame(() => setTimeout(done, 50)));
    clearInterval(clock);
    return longest;
}
