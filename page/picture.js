// The picture of an answer: as wide as the page, larger and smaller.

const INLINE = 600000; // bytes: a longer picture is an image, and its shapes have no titles
const SMALLEST = .7; // below it letters can't be read: the paper scrolls
const SHAPES = new Set(["svg", "g", "title", "rect", "line", "polyline", "polygon", "path", "circle", "text", "tspan"]);

// The picture as shapes, so that their titles show. Nothing but shapes comes in: else, and if it is long, it is an image.
function shapesOf(svg) {
    const parsed = svg.length < INLINE ? new DOMParser().parseFromString(svg, "image/svg+xml").documentElement : null;
    const isPlain = parsed && [parsed, ...parsed.querySelectorAll("*")]
        .every((element) => SHAPES.has(element.nodeName) && ![...element.attributes].some(({ name }) => /^on|href|style/.test(name)));
    return isPlain ? document.importNode(parsed, true) : null;
}

function elementOf(svg) {
    const shapes = shapesOf(svg);
    const words = shapes ? (shapes.querySelector("text") || { textContent: "" }).textContent : "";
    const says = `Picture: ${words || "what happened"}. The result says it in words.`;
    if (!shapes) return Object.assign(document.createElement("img"), { src: "data:image/svg+xml;charset=utf-8," + encodeURIComponent(svg), alt: says });
    shapes.setAttribute("role", "img");
    shapes.setAttribute("aria-label", says);
    for (const title of shapes.querySelectorAll("title")) if (title.textContent === "") title.remove();
    return shapes;
}

class Picture {
    constructor(paper, scale, fit) {
        Object.assign(this, { paper, scale, fit, svg: "", element: null, factor: null });
        new ResizeObserver(() => this.zoom(this.factor)).observe(paper);
    }

    show(svg) {
        const [, wide, high] = svg.match(/ width="(\d+)" height="(\d+)"/) || [0, 1000, 1000];
        Object.assign(this, { svg, element: elementOf(svg), wide: Number(wide), high: Number(high) });
        this.paper.replaceChildren(this.element);
        this.zoom(this.factor);
    }

    clear() {
        Object.assign(this, { svg: "", element: null });
        this.paper.replaceChildren();
    }

    // `null`: as wide as the paper, never above its own size, and never so small that letters can't be read.
    zoom(factor) {
        this.factor = factor;
        if (!this.element) return;
        const style = getComputedStyle(this.paper);
        const wide = this.paper.clientWidth - parseFloat(style.paddingLeft) - parseFloat(style.paddingRight);
        this.now = factor || Math.min(1, Math.max(SMALLEST, wide / this.wide));
        this.element.setAttribute("width", Math.floor(this.wide * this.now));
        this.element.setAttribute("height", Math.floor(this.high * this.now));
        this.scale.textContent = `${Math.round(this.now * 100)} %`;
        this.fit.setAttribute("aria-pressed", factor === null);
    }

    zoomBy(factor) {
        this.zoom(Math.min(4, Math.max(.2, this.now * factor)));
    }
}
