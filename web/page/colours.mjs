// The colours of points, and the names of what they tell.

/** The classes of the formats 0 to 5, as the LAS specification of the ASPRS names them. */
const CLASS_NAMES = ['Created, never classified', 'Unclassified', 'Ground', 'Low vegetation', 'Medium vegetation',
    'High vegetation', 'Building', 'Low point (noise)', 'Model key-point (mass point)', 'Water', 'Reserved', 'Reserved',
    'Overlap points'];

export const className = (number) => CLASS_NAMES[number] ?? 'Reserved';

const CLASS_COLOURS = [
    [150, 150, 160], [196, 196, 204], [166, 118, 70], [176, 214, 110], [104, 180, 84], [38, 130, 58], [214, 58, 52],
    [240, 60, 200], [250, 190, 60], [52, 124, 214], [120, 96, 160], [90, 90, 100], [240, 150, 60]];

// A colour for a number of which there are many: by steps around the circle of hues.
function hue(number) {
    const turn = number * 0.61803398875 % 1 * 12;
    const part = (shift) => {
        const at = (shift + turn) % 12;
        return Math.round(255 * (0.55 - 0.4 * Math.max(-1, Math.min(at - 3, 9 - at, 1))));
    };
    return [part(0), part(8), part(4)];
}

export const classColour = (number) => CLASS_COLOURS[number] ?? hue(number + 3);
const RETURN_COLOURS = [[140, 140, 150], [52, 128, 200], [236, 160, 60], [90, 170, 90], [200, 70, 80], [130, 90, 170],
    [140, 100, 80], [220, 120, 190]];
const RAMP = [[38, 70, 120], [52, 128, 140], [94, 170, 120], [196, 205, 110], [240, 190, 90], [226, 120, 70],
    [170, 50, 60]];

/** The colour of a share from 0 to 1 of the way from the lowest to the highest. */
export function rampColour(share) {
    const at = Math.min(Math.max(share, 0), 0.9999) * (RAMP.length - 1), low = Math.floor(at);
    return RAMP[low].map((from, i) => Math.round(from + (at - low) * (RAMP[low + 1][i] - from)));
}

/** What points can be coloured by: a name for the page, and whether a file has it. */
export const MODES = {
    height: ['Height', () => true],
    class: ['Class', () => true],
    intensity: ['Intensity', () => true],
    return: ['Return number', () => true],
    line: ['Flight line (point source)', () => true],
    rgb: ['RGB', (head) => head.format >= 2],
    file: ['File', (head, files) => files > 1],
};
export const FILE_COLOURS = [[52, 128, 214], [232, 132, 44]];

// What a colour is computed from, for a mode: a function of a block of points and a place in it.
function pickerOf(mode, scene) {
    const { low, high, mostIntensity, sources, colourShift, hidden } = scene;
    const shown = (block, i) => !hidden.has(block.classes[i]);
    const rampTable = Array.from({ length: 256 }, (_, i) => rampColour(i / 255));
    const pickers = {
        height: (block, i) => rampTable[Math.max(0, Math.min(255, Math.floor(
            255 * (block.positions[3 * i + 2] - low) / (high - low || 1))))],
        class: (block, i) => classColour(block.classes[i]),
        intensity: (block, i) => {
            const grey = 40 + Math.floor(215 * Math.min(1, block.intensities[i] / (mostIntensity || 1)));
            return [grey, grey, grey];
        },
        return: (block, i) => RETURN_COLOURS[block.returns[i]],
        line: (block, i) => hue(sources.get(block.sources[i]) ?? 0),
        rgb: (block, i) => [0, 1, 2].map((k) => block.colours[3 * i + k] >> colourShift),
        file: () => FILE_COLOURS[scene.slot],
    };
    return [pickers[mode], shown];
}

/** The colours of a block of points: four bytes each, the last 0 for points of a class that is not shown. */
export function coloursOf(block, mode, scene) {
    const [pick, shown] = pickerOf(mode, scene), bytes = new Uint8Array(4 * block.count);
    for (let i = 0; i < block.count; i++) {
        const colour = pick(block, i);
        bytes[4 * i] = colour[0];
        bytes[4 * i + 1] = colour[1];
        bytes[4 * i + 2] = colour[2];
        bytes[4 * i + 3] = shown(block, i) ? 255 : 0;
    }
    return bytes;
}

/** The rows of a legend: a colour, a text, and the class if it can be hidden. */
export function legendOf(mode, scene) {
    const { head, low, high, classes } = scene;
    if (mode === 'class')
        return [...classes.keys()].sort((a, b) => a - b)
            .map((number) => ({ colour: classColour(number), text: `${number} ${className(number)}`, number }));
    if (mode === 'return')
        return [...scene.returns].sort()
            .map((number) => ({ colour: RETURN_COLOURS[number], text: `return ${number}` }));
    if (mode === 'line')
        return [...scene.sources].sort((a, b) => a[0] - b[0]).slice(0, 40)
            .map(([source, place]) => ({ colour: hue(place), text: `line ${source}` }));
    if (mode === 'intensity')
        return [{ colour: [40, 40, 40], text: '0' },
            { colour: [255, 255, 255], text: `${scene.mostIntensity} and more` }];
    if (mode === 'rgb')
        return [];
    if (mode === 'file')
        return [{ colour: FILE_COLOURS[scene.slot], text: scene.name }];
    return [0, 0.25, 0.5, 0.75, 1].map((share) => ({ colour: rampColour(share),
        text: (head.origin[2] + low + share * (high - low)).toFixed(2) }));
}
