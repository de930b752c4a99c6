// Draws points from above on a plain canvas, where there is no WebGL.

const word = (r, g, b) => (255 << 24 | b << 16 | g << 8 | r) >>> 0;

// Draws each point of a block as a square; of those on one pixel the nearest is seen.
function drawBlock({ width, height, pixels, depths }, { positions, count }, colours, [x, y, z], side) {
    for (let i = 0; i < count; i++) {
        if (colours[4 * i + 3] === 0)
            continue;
        const a = positions[3 * i], b = positions[3 * i + 1], c = positions[3 * i + 2];
        const left = Math.round(x[0] * a + x[1] * b + x[2] * c + x[3] - side / 2);
        const top = Math.round(y[0] * a + y[1] * b + y[2] * c + y[3] - side / 2);
        const depth = z[0] * a + z[1] * b + z[2] * c + z[3];
        const colour = word(colours[4 * i], colours[4 * i + 1], colours[4 * i + 2]);
        for (let row = Math.max(0, top); row < Math.min(height, top + side); row++)
            for (let column = Math.max(0, left); column < Math.min(width, left + side); column++) {
                const at = row * width + column;
                if (depth < depths[at]) {
                    depths[at] = depth;
                    pixels[at] = colour;
                }
            }
    }
}

export class FlatDrawing {
    name = 'a plain canvas, from above';
    isFlat = true;
    #context;

    static on(canvas) {
        const drawing = new FlatDrawing();
        drawing.#context = canvas.getContext('2d', { alpha: false });
        return drawing.#context === null ? undefined : drawing;
    }

    get canvas() { return this.#context.canvas; }

    /** Draws layers, each a list of blocks with colours and a shift, as `rows` of a camera tell. */
    draw(layers, rows, grain, background) {
        const { width, height } = this.#context.canvas, image = this.#context.createImageData(width, height);
        const pixels = new Uint32Array(image.data.buffer).fill(word(...background));
        const picture = { width, height, pixels, depths: new Float32Array(width * height).fill(Infinity) };
        const side = Math.max(1, Math.round(grain));
        for (const { blocks, shift } of layers) {
            // the shift is part of the way from a position to a pixel
            const from = rows.map((row) => [...row.slice(0, 3), row[3] + [0, 1, 2].reduce((sum, i) =>
                sum + row[i] * shift[i], 0)]);
            for (const { block, colours } of blocks)
                drawBlock(picture, block, colours, from, side);
        }
        this.#context.putImageData(image, 0, 0);
    }

    clear() {}
}
