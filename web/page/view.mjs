// A canvas with points, which is turned, moved and zoomed by mouse, touch and keys.
import { coloursOf } from './colours.mjs';
import { FlatDrawing } from './draw_flat.mjs';
import { GlDrawing } from './draw_gl.mjs';
import { shiftOf } from './scene.mjs';

const NEAR = 10; // how far from a point a click may be, in pixels of CSS
const TURN = 0.1, MOVE = 30, ZOOM = 1.2;

// The background of the page as red, green and blue.
function backgroundOf(element) {
    const found = getComputedStyle(element).backgroundColor.match(/\d+(\.\d+)?/g) ?? ['255', '255', '255'];
    return found.slice(0, 3).map(Number);
}

// Drawings by WebGL that no view has: the first picture would wait for a new one.
const unused = [];

/** Makes a drawing by WebGL for the next view, if there is none. */
export function prepareDrawing() {
    if (unused.length === 0)
        putAside(GlDrawing.on(document.createElement('canvas')));
}

function putAside(drawing) {
    if (drawing instanceof GlDrawing && !drawing.isLost)
        unused.push(drawing);
}

function newDrawing(wantsFlat) {
    const made = wantsFlat ? undefined : unused.pop() ?? GlDrawing.on(document.createElement('canvas'));
    return made ?? FlatDrawing.on(document.createElement('canvas'));
}

export class View {
    scenes = [];
    mode = 'height';
    grain = 2;
    /** Called with a scene and the place of the point that was clicked. */
    onPick = () => {};
    /** Called when the camera was changed. */
    onMove = () => {};
    #kept = new WeakMap(); // the colours of blocks
    #asked = false;
    #closing = new AbortController();

    constructor(holder, camera, label, wantsFlat) {
        this.camera = camera;
        this.drawing = newDrawing(wantsFlat);
        this.canvas = this.drawing.canvas;
        this.canvas.tabIndex = 0;
        this.canvas.setAttribute('role', 'img');
        this.canvas.setAttribute('aria-label', label);
        this.canvas.setAttribute('aria-describedby', 'keys');
        holder.replaceChildren(this.canvas);
        this.#listen();
        this.observer = new ResizeObserver(() => this.redraw());
        this.observer.observe(this.canvas);
    }

    #rows(ratio = 1) {
        const { width, height } = this.canvas;
        const rows = this.camera.rows(width / ratio, height / ratio, this.drawing.isFlat);
        return [rows[0].map((it) => it * ratio), rows[1].map((it) => it * ratio), rows[2]];
    }

    get #layers() {
        return this.scenes.map((scene) => {
            const key = scene.keyOf(this.mode);
            const blocks = scene.blocks.map((block) => {
                let kept = this.#kept.get(block);
                if (kept?.key !== key) {
                    kept = { key, colours: coloursOf(block, this.mode, scene) };
                    this.#kept.set(block, kept);
                }
                return { block, colours: kept.colours };
            });
            const box = scene.isEmpty ? { min: [0, 0, 0], max: [0, 0, 0] } : { min: scene.min, max: scene.max };
            return { blocks, box, shift: shiftOf(scene, this.scenes[0]) };
        });
    }

    /** Draws before the next picture of the page. */
    redraw() {
        if (this.#asked)
            return;
        this.#asked = true;
        requestAnimationFrame(() => {
            this.#asked = false;
            this.draw();
        });
    }

    draw() {
        const ratio = Math.min(devicePixelRatio || 1, 2), box = this.canvas.getBoundingClientRect();
        const width = Math.max(1, Math.round(box.width * ratio)), height = Math.max(1, Math.round(box.height * ratio));
        if (this.canvas.width !== width || this.canvas.height !== height)
            Object.assign(this.canvas, { width, height });
        this.drawing.draw(this.#layers, this.#rows(ratio), Math.max(1, this.grain * ratio), backgroundOf(this.canvas));
    }

    /** The canvas as a PNG. */
    png() {
        this.draw();
        return new Promise((done) => this.canvas.toBlob(done, 'image/png'));
    }

    close() {
        this.#closing.abort();
        this.observer.disconnect();
        this.drawing.clear();
        putAside(this.drawing);
    }

    // The point that is nearest to a place of the canvas: of those within a few pixels the one in front.
    pick(left, top) {
        const [x, y, z] = this.#rows();
        let best, least = Infinity;
        for (const { blocks, shift } of this.#layers) {
            const scene = this.scenes.find((it) => it.blocks[0] === blocks[0]?.block);
            for (const { block, colours } of blocks)
                for (let i = 0; i < block.count; i++) {
                    const at = [0, 1, 2].map((axis) => block.positions[3 * i + axis] + shift[axis]);
                    const across = x[0] * at[0] + x[1] * at[1] + x[2] * at[2] + x[3] - left;
                    const down = y[0] * at[0] + y[1] * at[1] + y[2] * at[2] + y[3] - top;
                    const far = across * across + down * down;
                    if (far > NEAR * NEAR || colours[4 * i + 3] === 0)
                        continue;
                    const depth = z[0] * at[0] + z[1] * at[1] + z[2] * at[2] + z[3], measure = far * 4 + depth;
                    if (measure < least)
                        [best, least] = [{ scene, place: block.first + i }, measure];
                }
        }
        return best;
    }

    #turn(across, down) {
        this.camera.turn += across;
        if (!this.drawing.isFlat)
            this.camera.tilt = Math.max(0, Math.min(Math.PI, this.camera.tilt + down));
        this.onMove();
    }

    #move(across, down) {
        this.camera.shift = [this.camera.shift[0] + across, this.camera.shift[1] + down];
        this.onMove();
    }

    // Zooms, so that what is at a place of the canvas stays there.
    #zoom(factor, left, top) {
        const box = this.canvas.getBoundingClientRect(), { camera } = this;
        const from = [left ?? box.width / 2, top ?? box.height / 2];
        const zoom = Math.max(0.01, Math.min(10000, camera.zoom * factor)), real = zoom / camera.zoom;
        camera.shift = [from[0] - box.width / 2 - real * (from[0] - box.width / 2 - camera.shift[0]),
            from[1] - box.height / 2 - real * (from[1] - box.height / 2 - camera.shift[1])];
        camera.zoom = zoom;
        this.onMove();
    }

    #listen() {
        const { canvas } = this, down = new Map(), { signal } = this.#closing;
        const on = (name, call, more) => canvas.addEventListener(name, call, { signal, ...more });
        let moved = 0;
        const placeOf = (event) => {
            const box = canvas.getBoundingClientRect();
            return [event.clientX - box.left, event.clientY - box.top];
        };
        on('pointerdown', (event) => {
            canvas.setPointerCapture(event.pointerId);
            down.set(event.pointerId, placeOf(event));
            if (down.size === 1)
                moved = 0;
        });
        on('pointermove', (event) => {
            const before = down.get(event.pointerId), now = placeOf(event);
            if (before === undefined)
                return;
            const step = [now[0] - before[0], now[1] - before[1]];
            moved += Math.abs(step[0]) + Math.abs(step[1]);
            if (down.size === 2)
                this.#pinch(down, event.pointerId, now);
            else if (event.shiftKey || event.buttons & 6 || this.drawing.isFlat)
                this.#move(...step);
            else
                this.#turn(-step[0] / 150, -step[1] / 150);
            down.set(event.pointerId, now);
        });
        const end = (event) => {
            if (down.delete(event.pointerId) && event.type === 'pointerup' && moved < 5 && down.size === 0)
                this.onPick(this.pick(...placeOf(event)));
        };
        on('pointerup', end);
        on('pointercancel', end);
        on('contextmenu', (event) => event.preventDefault());
        on('wheel', (event) => {
            event.preventDefault();
            const step = Math.sign(event.deltaY) * Math.min(0.3, Math.abs(event.deltaY) / 500);
            this.#zoom(Math.exp(-step), ...placeOf(event));
        }, { passive: false });
        on('keydown', (event) => this.#key(event));
    }

    // Two fingers move and zoom.
    #pinch(down, id, now) {
        const [other] = [...down].filter(([key]) => key !== id).map(([, place]) => place), before = down.get(id);
        const distance = (place) => Math.hypot(place[0] - other[0], place[1] - other[1]) || 1;
        this.#move((now[0] - before[0]) / 2, (now[1] - before[1]) / 2);
        this.#zoom(distance(now) / distance(before), (now[0] + other[0]) / 2, (now[1] + other[1]) / 2);
    }

    #key(event) {
        const arrows = { ArrowLeft: [-1, 0], ArrowRight: [1, 0], ArrowUp: [0, -1], ArrowDown: [0, 1] }[event.key];
        if (event.ctrlKey || event.altKey || event.metaKey)
            return;
        if (arrows !== undefined && event.shiftKey)
            this.#move(MOVE * arrows[0], MOVE * arrows[1]);
        else if (arrows !== undefined)
            this.#turn(TURN * arrows[0], TURN * arrows[1]);
        else if (event.key === '+' || event.key === '=')
            this.#zoom(ZOOM);
        else if (event.key === '-')
            this.#zoom(1 / ZOOM);
        else if (event.key === 'Home' || event.key === '0')
            this.camera.reset();
        else if (event.key === 't')
            this.camera.fromAbove();
        else if (event.key === 'Enter')
            this.onPick(this.pick(...[this.canvas.clientWidth / 2, this.canvas.clientHeight / 2]));
        else
            return;
        event.preventDefault();
        this.onMove();
    }
}
