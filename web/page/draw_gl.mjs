// Draws points by WebGL.

const VERTEX = `attribute vec3 place; attribute vec4 colour; uniform vec4 rows[3];
uniform vec3 shift, size; uniform float grain; varying vec4 shown;
void main() {
    vec4 at = vec4(place + shift, 1.0);
    float depth = clamp(dot(rows[2], at) / size.z, -1.0, 1.0);
    gl_Position = vec4(dot(rows[0], at) / size.x * 2.0 - 1.0, 1.0 - dot(rows[1], at) / size.y * 2.0, depth, 1.0);
    gl_PointSize = grain;
    shown = colour;
}`;
const FRAGMENT = `precision mediump float; varying vec4 shown;
void main() { if (shown.a < 0.5) discard; gl_FragColor = vec4(shown.rgb, 1.0); }`;

function program(gl) {
    const made = gl.createProgram();
    for (const [kind, text] of [[gl.VERTEX_SHADER, VERTEX], [gl.FRAGMENT_SHADER, FRAGMENT]]) {
        const shader = gl.createShader(kind);
        gl.shaderSource(shader, text);
        gl.compileShader(shader);
        gl.attachShader(made, shader);
    }
    gl.bindAttribLocation(made, 0, 'place');
    gl.bindAttribLocation(made, 1, 'colour');
    gl.linkProgram(made);
    return gl.getProgramParameter(made, gl.LINK_STATUS) ? made : undefined;
}

export class GlDrawing {
    name = 'WebGL';
    #gl;
    #program;
    #kept = new Map(); // what the card has of each block

    /** A drawing on a canvas, or undefined if there is no WebGL. */
    static on(canvas) {
        const gl = canvas.getContext('webgl', { antialias: false, alpha: false, preserveDrawingBuffer: true });
        const made = gl === null ? undefined : program(gl);
        if (made === undefined)
            return undefined;
        const drawing = new GlDrawing();
        drawing.#gl = gl;
        drawing.#program = made;
        return drawing;
    }

    #buffersOf(block, colours) {
        const gl = this.#gl;
        let kept = this.#kept.get(block);
        if (kept === undefined) {
            kept = { places: gl.createBuffer(), colours: gl.createBuffer() };
            this.#kept.set(block, kept);
            gl.bindBuffer(gl.ARRAY_BUFFER, kept.places);
            gl.bufferData(gl.ARRAY_BUFFER, block.positions, gl.STATIC_DRAW);
        }
        if (kept.of !== colours) {
            gl.bindBuffer(gl.ARRAY_BUFFER, kept.colours);
            gl.bufferData(gl.ARRAY_BUFFER, colours, gl.STATIC_DRAW);
            kept.of = colours;
        }
        return kept;
    }

    get canvas() { return this.#gl.canvas; }

    get isLost() { return this.#gl.isContextLost(); }

    /** Draws layers, each a list of blocks with colours and a shift, as `rows` of a camera tell. */
    draw(layers, rows, grain, background) {
        const gl = this.#gl, { width, height } = gl.canvas, at = (name) => gl.getUniformLocation(this.#program, name);
        gl.viewport(0, 0, width, height);
        gl.clearColor(...background.map((it) => it / 255), 1);
        gl.clear(gl.COLOR_BUFFER_BIT | gl.DEPTH_BUFFER_BIT);
        gl.enable(gl.DEPTH_TEST);
        gl.useProgram(this.#program);
        gl.uniform4fv(at('rows'), rows.flat());
        gl.uniform3f(at('size'), width, height, depthOf(layers, rows));
        gl.uniform1f(at('grain'), grain);
        for (const { blocks, shift } of layers) {
            gl.uniform3f(at('shift'), ...shift);
            for (const { block, colours } of blocks) {
                const kept = this.#buffersOf(block, colours);
                gl.bindBuffer(gl.ARRAY_BUFFER, kept.places);
                gl.enableVertexAttribArray(0);
                gl.vertexAttribPointer(0, 3, gl.FLOAT, false, 0, 0);
                gl.bindBuffer(gl.ARRAY_BUFFER, kept.colours);
                gl.enableVertexAttribArray(1);
                gl.vertexAttribPointer(1, 4, gl.UNSIGNED_BYTE, true, 0, 0);
                gl.drawArrays(gl.POINTS, 0, block.count);
            }
        }
    }

    /** Forgets what the card has. */
    clear() {
        for (const { places, colours } of this.#kept.values()) {
            this.#gl.deleteBuffer(places);
            this.#gl.deleteBuffer(colours);
        }
        this.#kept.clear();
    }
}

// The greatest depth of what is drawn, by the corners of its box.
function depthOf(layers, rows) {
    let most = 1;
    for (const { box: { min, max }, shift } of layers)
        for (let corner = 0; corner < 8; corner++) {
            const at = [0, 1, 2].map((axis) => (corner >> axis & 1 ? max : min)[axis] + shift[axis]);
            most = Math.max(most, Math.abs(rows[2][0] * at[0] + rows[2][1] * at[1] + rows[2][2] * at[2] + rows[2][3]));
        }
    return Number.isFinite(most) ? 1.01 * most : 1;
}
