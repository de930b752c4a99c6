// The tables of what is in a file.
import { classColour, className } from './colours.mjs';

// By hand, since `toLocaleString` takes a tenth of a second when it is first called.
/** A number with commas between thousands. */
export const grouped = (value) => String(value).replace(/\B(?=(\d{3})+(?!\d))/g, ',');
const css = ([r, g, b]) => `rgb(${r},${g},${b})`;

/** A new element with texts and elements inside. */
export function make(name, properties = {}, ...inside) {
    const element = document.createElement(name);
    for (const [key, value] of Object.entries(properties))
        if (key.startsWith('aria-') || key === 'scope' || key === 'role')
            element.setAttribute(key, value);
        else
            element[key] = value;
    element.append(...inside);
    return element;
}

function table(caption, heads, rows) {
    const made = make('table', {}, make('caption', {}, caption));
    if (heads.length > 0)
        made.append(make('thead', {}, make('tr', {}, ...heads.map((it) => make('th', { scope: 'col' }, it)))));
    made.append(make('tbody', {}, ...rows.map(([first, ...rest]) =>
        make('tr', {}, make('th', { scope: 'row' }, first), ...rest.map((it) => make('td', {}, it))))));
    return make('div', { className: 'wide' }, made);
}

// A day of a year as a date, or as it stands if it is none.
function dateOf(created) {
    if (created === undefined)
        return 'not said';
    const { year, day } = created, date = new Date(Date.UTC(year, 0, day));
    const isDate = year > 1900 && year < 10000 && day >= 1 && day <= 366 && date.getUTCFullYear() === year;
    return isDate ? date.toISOString().slice(0, 10) : `day ${day} of ${year}`;
}

// The box of the records that were counted.
function boxOfRecords({ scale, coordinateOffset }, { min, max }) {
    const scaled = (raw) => [0, 1, 2].map((i) => raw[i] * scale[i] + coordinateOffset[i]);
    return { min: scaled(min), max: scaled(max) };
}

// Numbers of the header that the records do not have.
function differences(head, summary) {
    const found = [];
    const returns = Array.from(summary.returns).slice(1, 6);
    if (head.returns.some((it, i) => it !== returns[i]) && head.returns.some((it) => it !== 0))
        found.push('the numbers of points by return');
    const { min, max } = boxOfRecords(head, summary), far = (a, b, i) => !(Math.abs(a - b) <= Math.abs(head.scale[i]));
    if (min.some((low, i) => far(low, head.box.min[i], i) || far(max[i], head.box.max[i], i)))
        found.push('the box');
    return found;
}

function generalRows(scene) {
    const { head, result } = scene;
    const chunks = head.chunkSize === undefined ? 'numbers of points of their own'
        : `${grouped(head.chunkSize)} points`;
    const packed = head.isPacked ? `yes, in ${grouped(head.chunkCount)} chunks of ${chunks}` : 'no';
    const rows = [['Points', grouped(head.points)], ['LAS version', head.version],
        ['Point data format', `${head.format}, ${head.recordLength} bytes a record`
            + (head.extra > 0 ? `, ${head.extra} of them extra` : '')],
        ['Packed', packed], ['Size', `${grouped(head.size)} bytes`],
        ['Header and offset', `${head.headerSize} bytes; points from byte ${grouped(head.offset)}`],
        ['Made', dateOf(head.created)], ['Generating software', head.software || 'not said'],
        ['System', head.system || 'not said'], ['Scale', head.scale.join(', ')],
        ['Offset', head.coordinateOffset.join(', ')],
        ['Coordinate system', head.crs.length > 0 ? head.crs.join('; ') : 'not said'],
        ['Points by return in the header', head.returns.map(grouped).join(', ')]];
    if (result.summary !== undefined && result.fault === undefined && head.points > 0) {
        const returns = Array.from(result.summary.returns).slice(1, 6);
        rows.push(['Points by return, counted', returns.map(grouped).join(', ')]);
        const differing = differences(head, result.summary);
        rows.push(['Header and points', differing.length > 0 ? `differ in ${differing.join(' and ')}` : 'agree']);
    }
    return rows;
}

function boxTable(scene) {
    const { head, result: { summary } } = scene, counted = summary !== undefined && summary.points > 0;
    const rows = ['x', 'y', 'z'].map((name, i) => {
        const { min, max } = counted ? boxOfRecords(head, summary) : head.box, [low, high] = [min[i], max[i]];
        return [name, low.toFixed(3), high.toFixed(3), (high - low).toFixed(3)];
    });
    return table(`Box, in the units of the file (metres in most)${counted ? '' : ', by the header'}`,
        ['Axis', 'From', 'To', 'Length'], rows);
}

function bar(share, colour) {
    const made = make('span', { className: 'bar' }), part = make('span');
    part.style.width = `${Math.max(0.5, 100 * share)}%`;
    part.style.background = css(colour);
    made.append(part);
    return made;
}

function classTable(scenes) {
    const lists = scenes.map(({ result, classes }) => result.summary?.classes
        ?? Array.from({ length: 32 }, (_, i) => classes.get(i) ?? 0));
    const numbers = Array.from({ length: 32 }, (_, i) => i).filter((i) => lists.some((list) => list[i] > 0));
    const most = Math.max(1, ...lists.flatMap((list) => [...list]));
    const two = scenes.length > 1;
    const rows = numbers.map((i) => [`${i} ${className(i)}`, ...lists.flatMap((list) =>
        [grouped(list[i]), bar(list[i] / most, classColour(i))]), ...two ? [grouped(lists[1][i] - lists[0][i])] : []]);
    const heads = ['Class', ...scenes.flatMap((scene) => [two ? scene.name : 'Points', 'Share'])];
    return table(two ? 'Classes of both files' : 'Classes', two ? [...heads, 'Second less first'] : heads, rows);
}

function sumsTable(scene) {
    const { fileSum, plainSum, fault, summary } = scene.result;
    const plain = plainSum ?? (fault ? 'the file has no plain bytes' : summary ? 'not there' : 'being computed');
    return table('SHA-256', [], [['of the file', make('code', {}, fileSum ?? 'being computed')],
        ['of its plain bytes, as an unpacked .las', make('code', {}, plain)]]);
}

/** All tables of one file. */
export function fileTables(scene) {
    const { head } = scene;
    const made = [table('What is in the file', [], generalRows(scene)), boxTable(scene), classTable([scene]),
        sumsTable(scene), make('p', { className: 'note' }, 'LAZ has no checksum: damage that still spells point '
            + 'records is seen by no reader. Compare these sums with a manifest of the archive.')];
    if (head.vlrs.length > 0)
        made.push(table('Variable-length records', ['User ID', 'Record ID', 'Bytes', 'Description'],
            head.vlrs.map((it) => [it.userId, String(it.recordId), grouped(it.length), it.description])));
    if (scene.result.report !== undefined)
        made.push(make('details', {}, make('summary', {}, 'The report of lasinfo'),
            make('pre', {}, scene.result.report)));
    return made;
}

/** The table of two files, compared by class. */
export const comparison = (scenes) => classTable(scenes);

const RECORD_NAMES = { returnNumber: 'Return', numberOfReturns: 'Returns of the pulse', classification: 'Class',
    scanAngleRank: 'Scan angle rank', pointSourceId: 'Point source (flight line)', gpsTime: 'GPS time',
    userData: 'User data', scanDirectionFlag: 'Scan direction flag', edgeOfFlightLine: 'Edge of flight line',
    intensity: 'Intensity',
    classFlags: 'Flags (1 synthetic, 2 key-point, 4 withheld)', red: 'Red', green: 'Green', blue: 'Blue' };

/** The table of a record. */
export function recordTable({ number: place, chunk, fields, extra }) {
    const textOf = (name, value) => {
        if (name === 'classification')
            return `${value} ${className(value)}`;
        return ['x', 'y', 'z'].includes(name) ? value.toFixed(3) : String(value);
    };
    const rows = Object.entries(fields).map(([name, value]) =>
        [RECORD_NAMES[name] ?? (name < 'a' ? `${name}, raw` : name), textOf(name, value)]);
    if (extra.length > 0)
        rows.push(['Extra bytes', Array.from(extra, (byte) => byte.toString(16).padStart(2, '0')).join(' ')]);
    return table(`Record ${grouped(place)}, in chunk ${grouped(chunk)}`, [], rows);
}
