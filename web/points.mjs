// Point records as typed arrays.

/** The names of the arrays that `fieldsOf` makes. */
export const FIELDS = Object.freeze([
    'X', 'Y', 'Z', 'x', 'y', 'z', 'intensity', 'returnNumber', 'numberOfReturns', 'scanDirectionFlag',
    'edgeOfFlightLine', 'classification', 'classFlags', 'scanAngleRank', 'userData', 'pointSourceId', 'gpsTime',
    'red', 'green', 'blue']);

// One field of all records, from its place in the first one on. (A loop for each type is compiled to fast code.)
function int32s(view, at, length, count) {
    const list = new Int32Array(count);
    for (let i = 0; i < count; i++, at += length)
        list[i] = view.getInt32(at, true);
    return list;
}

function uint16s(view, at, length, count) {
    const list = new Uint16Array(count);
    for (let i = 0; i < count; i++, at += length)
        list[i] = view.getUint16(at, true);
    return list;
}

function float64s(view, at, length, count) {
    const list = new Float64Array(count);
    for (let i = 0; i < count; i++, at += length)
        list[i] = view.getFloat64(at, true);
    return list;
}

function int8s(view, at, length, count) {
    const list = new Int8Array(count);
    for (let i = 0; i < count; i++, at += length)
        list[i] = view.getInt8(at);
    return list;
}

function bits(view, at, length, count, shift, mask) {
    const list = new Uint8Array(count);
    for (let i = 0; i < count; i++, at += length)
        list[i] = view.getUint8(at) >> shift & mask;
    return list;
}

// How a field is read: a call, its place in a record, and what the call takes more.
const READERS = {
    X: [int32s, 0], Y: [int32s, 4], Z: [int32s, 8], intensity: [uint16s, 12],
    returnNumber: [bits, 14, 0, 7], numberOfReturns: [bits, 14, 3, 7], scanDirectionFlag: [bits, 14, 6, 1],
    edgeOfFlightLine: [bits, 14, 7, 1], classification: [bits, 15, 0, 31], classFlags: [bits, 15, 5, 7],
    scanAngleRank: [int8s, 16], userData: [bits, 17, 0, 255], pointSourceId: [uint16s, 18],
};

function readersOf(format) {
    const time = format % 2 === 1 ? { gpsTime: [float64s, 20] } : {};
    const at = format === 2 ? 20 : 28;
    const colours = format >= 2 ? { red: [uint16s, at], green: [uint16s, at + 2], blue: [uint16s, at + 4] } : {};
    return { ...READERS, ...time, ...colours };
}

function scaled(raw, scale, offset) {
    const list = new Float64Array(raw.length);
    for (let i = 0; i < raw.length; i++)
        list[i] = raw[i] * scale + offset;
    return list;
}

/**
 * Fields of records as typed arrays. `layout` has `format`, `recordLength`, `scale` and `coordinateOffset`; `names` are
 * the arrays that are wanted. A field that the format does not have is left out.
 */
export function fieldsOf(records, layout, names = FIELDS) {
    const { format, recordLength, scale, coordinateOffset } = layout;
    const view = new DataView(records.buffer, records.byteOffset, records.byteLength);
    const count = records.length / recordLength, readers = readersOf(format), points = {};
    const read = ([call, at, ...more]) => call(view, at, recordLength, count, ...more);
    for (const name of names)
        if (readers[name] !== undefined)
            points[name] = read(readers[name]);
    for (const [axis, name] of ['x', 'y', 'z'].entries())
        if (names.includes(name)) {
            const raw = points[name.toUpperCase()] ?? read(readers[name.toUpperCase()]);
            points[name] = scaled(raw, scale[axis], coordinateOffset[axis]);
        }
    return points;
}
