// A text area with line numbers and marked lines. Of numbers and bands only those in sight are drawn, so long texts stay quick.

const LINE = 20, ABOVE = 6; // pixels of a line, and above the first one, as in style.css

class Editor {
    constructor(area, gutter, bands) {
        Object.assign(this, { area, gutter, bands, marked: new Map(), count: 1 });
        area.addEventListener("scroll", () => this.draw());
        area.addEventListener("input", () => this.changed());
        new ResizeObserver(() => this.draw()).observe(area);
    }

    set(text) {
        this.widen(text.split("\n").length); // first, so that a long text is laid out once
        this.area.value = text;
        this.area.scrollTop = this.area.scrollLeft = 0;
        this.mark(new Map());
    }

    changed() {
        this.widen(this.area.value.split("\n").length);
        this.mark(new Map());
    }

    widen(count) {
        this.count = count;
        this.gutter.style.width = `${Math.max(3, String(count).length) + 2.5}ch`;
        this.area.parentElement.style.setProperty("--lines", count);
    }

    mark(marked) {
        this.marked = marked;
        this.draw();
    }

    draw() {
        const first = Math.max(0, Math.floor((this.area.scrollTop - ABOVE) / LINE));
        const last = Math.min(this.count, first + Math.ceil(this.area.clientHeight / LINE) + 2);
        const left = `${this.gutter.offsetWidth}px`;
        const numbers = [], bands = [];
        for (let index = first; index < last; index += 1) {
            const top = `${ABOVE + index * LINE - this.area.scrollTop}px`;
            const className = this.marked.get(index + 1) || "";
            const number = Object.assign(document.createElement("span"), { className, textContent: index + 1 });
            number.style.top = top;
            numbers.push(number);
            if (className === "") continue;
            const band = Object.assign(document.createElement("div"), { className });
            Object.assign(band.style, { top, left });
            bands.push(band);
        }
        this.gutter.replaceChildren(...numbers);
        this.bands.replaceChildren(...bands);
    }

    // Shows a line, and selects it, or the word at this column.
    go(number, column) {
        const lines = this.area.value.split("\n");
        const line = lines[number - 1] || "";
        const start = lines.slice(0, number - 1).reduce((sum, one) => sum + one.length + 1, 0);
        this.area.focus();
        if (column) this.area.setSelectionRange(start + column - 1, start + column - 1 + line.slice(column - 1).match(/^\S*/)[0].length);
        else this.area.setSelectionRange(start, start + line.length);
        this.show(number);
    }

    show(number) {
        const top = (number - 1) * LINE, high = this.area.clientHeight;
        if (top < this.area.scrollTop || top + LINE + ABOVE > this.area.scrollTop + high) this.area.scrollTop = Math.max(0, top - high / 2);
        this.draw();
    }

    // Puts a line behind the cursor's, or in its place if that is empty.
    insert(line) {
        const { value, selectionStart } = this.area;
        const end = value.indexOf("\n", selectionStart);
        const at = end < 0 ? value.length : end;
        const isEmpty = value.slice(value.lastIndexOf("\n", at - 1) + 1, at) === "";
        this.area.focus();
        this.area.setRangeText((isEmpty ? "" : "\n") + line, at, at, "end");
        this.area.dispatchEvent(new Event("input", { bubbles: true }));
    }
}
