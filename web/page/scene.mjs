// The points of one file that are drawn, and what is known of them so far.

export class Scene {
    /** The head, as the worker tells it. */
    head;
    /** Blocks of points, in the order of the file; `first` is the place of the first point among all that are drawn. */
    blocks = [];
    count = 0;
    low = Infinity;
    high = -Infinity;
    min = [Infinity, Infinity, Infinity];
    max = [-Infinity, -Infinity, -Infinity];
    mostIntensity = 0;
    colourShift = 0;
    /** How many of the points that are drawn have each class. */
    classes = new Map();
    returns = new Set();
    /** The flight lines, and in which order they came. */
    sources = new Map();
    /** Classes that are not drawn. */
    hidden = new Set();
    /** What the worker counted over all records, the report, the sums and why the file was refused. */
    result = {};

    constructor(head) {
        this.head = head;
        // heights are coloured by the box of the head, if it is one, until all points are there
        const low = head.box.min[2] - head.origin[2], high = head.box.max[2] - head.origin[2];
        if (low <= high && high - low < 1e9)
            [this.low, this.high] = [low, high];
    }

    add(points) {
        if (points.count === 0)
            return;
        this.blocks.push({ ...points, first: this.count, number: this.blocks.length });
        this.count += points.count;
        for (let i = 0; i < points.positions.length; i++) {
            const value = points.positions[i], axis = i % 3;
            if (value < this.min[axis])
                this.min[axis] = value;
            if (value > this.max[axis])
                this.max[axis] = value;
        }
        this.low = Math.min(this.low, this.min[2]);
        this.high = Math.max(this.high, this.max[2]);
        for (let i = 0; i < points.count; i++) {
            this.classes.set(points.classes[i], (this.classes.get(points.classes[i]) ?? 0) + 1);
            this.returns.add(points.returns[i]);
            if (!this.sources.has(points.sources[i]))
                this.sources.set(points.sources[i], this.sources.size);
            while (points.intensities[i] > this.mostIntensity)
                this.mostIntensity = 2 * this.mostIntensity + 1;
        }
        if (this.colourShift === 0 && points.colours?.some((value) => value > 255))
            this.colourShift = 8;
    }

    /** The number in the file of the point at a place among those that are drawn. */
    recordOf(place) { return place * this.head.step; }

    /** Called when all points are there. */
    end() {
        if (!this.isEmpty)
            [this.low, this.high] = [this.min[2], this.max[2]];
    }

    /** What the colours of a block depend on beside the block. */
    keyOf(mode) {
        const { low, high, mostIntensity, colourShift, hidden } = this;
        const more = { height: [low, high], intensity: [mostIntensity], rgb: [colourShift] }[mode] ?? [];
        return JSON.stringify([mode, ...more, ...[...hidden].sort()]);
    }

    get isEmpty() { return this.count === 0; }
}

/** The box of some scenes together, told from the corner of the first. */
export function boxOf(scenes) {
    const full = scenes.filter((scene) => !scene.isEmpty);
    if (full.length === 0)
        return { min: [0, 0, 0], max: [1, 1, 1] };
    const min = [Infinity, Infinity, Infinity], max = [-Infinity, -Infinity, -Infinity];
    for (const scene of full)
        for (const axis of [0, 1, 2]) {
            const shift = scene.head.origin[axis] - scenes[0].head.origin[axis];
            min[axis] = Math.min(min[axis], scene.min[axis] + shift);
            max[axis] = Math.max(max[axis], scene.max[axis] + shift);
        }
    return { min, max };
}

/** Where the corner of a scene lies from that of another. */
export const shiftOf = (scene, other) => [0, 1, 2].map((axis) => scene.head.origin[axis] - other.head.origin[axis]);
