// The page: opens files, and shows what the workers tell of them.
import { MODES, legendOf } from './colours.mjs';
import { Camera } from './camera.mjs';
import { Scene, boxOf } from './scene.mjs';
import { comparison, fileTables, grouped, make, recordTable } from './tables.mjs';
import { View, prepareDrawing } from './view.mjs';

const at = (id) => document.getElementById(id);
const inline = (text) => Uint8Array.from(atob(text), (letter) => letter.charCodeAt(0));
const CAUSES = JSON.parse(at('causes').textContent);
const workerPlace = URL.createObjectURL(new Blob([at('worker').textContent], { type: 'text/javascript' }));
const moduleBytes = new Response(new Blob([inline(at('module').textContent.trim())]).stream()
    .pipeThrough(new DecompressionStream('gzip'))).arrayBuffer();

const camera = new Camera();
/** At most two files: their names, workers and scenes. */
let slots = [];
let views = [];
let asked = 0;
const waiting = new Map();

const say = (text) => { at('said').textContent = text; };
const scenesOf = () => slots.map((slot) => slot.scene).filter((scene) => scene !== undefined);
const redraw = () => views.forEach((view) => view.redraw());

// What is told of a file that is refused: its cause, and what `las help` says of it.
function told(fault) {
    if (fault.number === undefined)
        return `${fault.name}: ${fault.message}`;
    return `Refused: ${fault.message}. ${CAUSES[fault.number - 1]}`;
}

// A worker that has compiled the module.
function readyWorker() {
    const worker = new Worker(workerPlace);
    moduleBytes.then((module) => worker.postMessage({ kind: 'prepare', module }), () => {});
    return worker;
}

// One is ready before a file is opened.
let spare = readyWorker();

class Slot {
    constructor(blob, name) {
        Object.assign(this, { blob, name, begun: performance.now(), scene: undefined, isDone: false });
        this.worker = spare ?? readyWorker();
        spare = undefined;
        this.worker.onmessage = ({ data }) => this.take(data);
        this.worker.onerror = ({ message }) =>
            this.fail({ name: 'Stopped', message: message || 'the worker does not start' });
        moduleBytes.then(() => this.worker.postMessage({ kind: 'open', blob }), (fault) => this.fail(fault));
    }

    fail(fault) {
        this.isDone = true;
        this.fault = fault;
        showState();
    }

    // Asks the worker for something else than the points.
    ask(message) {
        const id = ++asked;
        this.worker.postMessage({ ...message, id });
        return new Promise((done, failed) => waiting.set(id, { done, failed }));
    }

    take(data) {
        if (data.id !== undefined) {
            const { done, failed } = waiting.get(data.id) ?? {};
            waiting.delete(data.id);
            data.kind === 'fault' ? failed?.(data.fault) : done?.(data);
        } else if (data.kind === 'head')
            this.begin(data.head);
        else if (data.kind === 'points')
            this.add(data);
        else if (data.kind === 'counted')
            this.end(data);
        else if (data.kind === 'sum') {
            this.scene.result.fileSum = data.fileSum;
            showTables();
            document.body.dataset.sums = String(slots.filter((slot) => slot.scene?.result.fileSum).length);
        } else
            this.fail(data.fault);
    }

    begin(head) {
        this.scene = new Scene(head);
        Object.assign(this.scene, { name: this.name, slot: slots.indexOf(this) });
        layOut();
    }

    add({ points, done, of }) {
        const isFirst = this.scene.isEmpty;
        this.scene.add(points);
        this.progress = of === 0 ? 1 : done / of;
        if (isFirst)
            fit();
        showProgress();
        views.forEach((view) => (isFirst ? view.draw() : view.redraw()));
        if (isFirst && points.count > 0)
            this.drawn();
    }

    // Called when the first points are drawn. The tables come after the browser has shown them.
    drawn() {
        requestAnimationFrame(() => setTimeout(() => {
            document.body.dataset.firstPicture = String(Math.round(performance.now() - this.begun));
            showTables();
        }));
    }

    end({ fault, summary, report, plainSum }) {
        Object.assign(this.scene.result, { fault, summary, report, plainSum });
        this.scene.end();
        this.isDone = true;
        this.fault = fault;
        fit();
        redraw();
        showTables();
        showLegend();
        showState();
        document.body.dataset.took = String(Math.round(performance.now() - this.begun));
        spare ??= readyWorker();
    }

    close() { this.worker.terminate(); }
}

// Puts the box of all files in the middle of the picture.
function fit() {
    camera.box = boxOf(scenesOf());
}

function showProgress() {
    const reading = slots.filter((slot) => !slot.isDone);
    at('progress').hidden = reading.length === 0;
    at('progress').value = reading.length === 0 ? 1 : Math.min(...reading.map((slot) => slot.progress ?? 0));
}

// The line that tells of a file, and what is missing of it.
function lineOf({ name, scene, fault, isDone }) {
    if (scene === undefined)
        return fault ? `${name}: ${told(fault)}` : `${name}: opening.`;
    const { head, count } = scene, points = grouped(head.points);
    const all = isDone ? `: ${grouped(count)} in all` : '';
    const drawn = head.step > 1 ? ` One point in ${head.step} is drawn${all}.` : '';
    if (fault !== undefined)
        return `${name}: ${told(fault)} Shown are the ${grouped(count)} points of the chunks before it.`;
    return `${name}: ${points} points${isDone ? '' : ', decoding'}.${drawn}`;
}

function showState() {
    showProgress();
    say(slots.map(lineOf).join(' '));
    at('said').classList.toggle('bad', slots.some((slot) => slot.fault !== undefined));
    const isDone = slots.length > 0 && slots.every((slot) => slot.isDone);
    document.body.dataset.state = !isDone ? 'reading' : slots.some((slot) => slot.fault) ? 'refused' : 'done';
    for (const id of ['saveLas', 'saveLaz'])
        at(id).disabled = !isDone || slots.some((slot) => slot.fault);
    at('savePng').disabled = scenesOf().length === 0;
    at('place').disabled = !isDone;
}

// Makes the canvases that the files and the settings ask for.
function layOut() {
    const scenes = scenesOf(), sideBySide = scenes.length > 1 && at('layout').value === 'side';
    const wantsFlat = at('drawing').value === 'flat', groups = sideBySide ? scenes.map((it) => [it]) : [scenes];
    views.forEach((view) => view.close());
    at('views').replaceChildren();
    at('layoutRow').hidden = scenes.length < 2;
    views = groups.filter((group) => group.length > 0).map((group) => {
        const holder = make('div', { className: 'holder' });
        at('views').append(holder);
        const view = new View(holder, camera, `Points of ${group.map((it) => it.name).join(' and ')}`, wantsFlat);
        view.scenes = group;
        view.onMove = redraw;
        view.onPick = (found) => found && showRecord(slots.find(({ scene }) => scene === found.scene),
            found.scene.recordOf(found.place));
        return view;
    });
    at('drawn').textContent = views.length > 0 ? `Drawn by ${views[0].drawing.name}.` : '';
    showModes();
    setMode();
    showState();
}

// The ways of colouring that the files have.
function showModes() {
    const scenes = scenesOf(), now = at('mode').value;
    const names = Object.keys(MODES).filter((name) => scenes.some(({ head }) => MODES[name][1](head, scenes.length)));
    at('mode').replaceChildren(...names.map((name) => make('option', { value: name }, MODES[name][0])));
    at('mode').value = names.includes(now) ? now : 'height';
}

function setMode() {
    const mode = at('mode').value;
    for (const view of views) {
        view.mode = mode === 'rgb' && view.scenes.some(({ head }) => head.format < 2) ? 'height' : mode;
        view.grain = Number(at('grain').value);
    }
    showLegend();
    redraw();
}

function showLegend() {
    const seen = new Set(), rows = scenesOf().flatMap((scene) => legendOf(views[0]?.mode ?? 'height', scene))
        .filter(({ text }) => !seen.has(text) && seen.add(text));
    at('legend').replaceChildren(...rows.map(({ colour, text, number }) => {
        const spot = make('span', { className: 'spot' });
        spot.style.background = `rgb(${colour.join(',')})`;
        if (number === undefined)
            return make('li', {}, spot, text);
        const box = make('input', { type: 'checkbox', checked: !scenesOf().some((scene) => scene.hidden.has(number)) });
        box.onchange = () => {
            scenesOf().forEach((scene) => (box.checked ? scene.hidden.delete(number) : scene.hidden.add(number)));
            redraw();
        };
        return make('li', {}, make('label', {}, box, spot, text));
    }));
}

function showTables() {
    const scenes = scenesOf();
    at('tables').replaceChildren(...scenes.length > 1 ? [comparison(scenes)] : [],
        ...scenes.map((scene) =>
            make('section', { 'aria-label': scene.name }, make('h2', {}, scene.name), ...fileTables(scene))));
}

async function showRecord(slot, number) {
    try {
        const { record } = await slot.ask({ kind: 'record', number });
        at('record').replaceChildren(recordTable(record));
        at('place').value = String(number);
    } catch (fault) {
        at('record').textContent = told(fault);
    }
}

function download(blob, name) {
    const place = URL.createObjectURL(blob), link = make('a', { href: place, download: name });
    link.click();
    setTimeout(() => URL.revokeObjectURL(place), 60000);
}

const stemOf = (name) => name.replace(/\.(las|laz)$/i, '');

// Saves the first file in a form.
async function save(form) {
    const slot = slots[0], name = `${stemOf(slot.name)}.${form}`;
    say(`${name}: making it.`);
    try {
        const { blob } = await slot.ask({ kind: 'save', form });
        document.body.dataset.saved = `${name} ${blob.size}`;
        download(blob, name);
        say(`${name}: ${grouped(blob.size)} bytes, handed to the browser.`);
    } catch (fault) {
        say(`${name}: ${told(fault)}`);
    }
}

// Opens files: one in the place of all, or as the second one; two at once side by side.
function open(files, asSecond = false) {
    const list = [...files].slice(0, 2);
    if (list.length === 0)
        return;
    const kept = asSecond ? slots.slice(0, 1) : [];
    slots.filter((slot) => !kept.includes(slot)).forEach((slot) => slot.close());
    slots = kept;
    document.body.dataset.state = 'reading';
    for (const name of ['firstPicture', 'took', 'sums', 'saved'])
        delete document.body.dataset[name];
    at('record').replaceChildren();
    for (const file of list.slice(0, 2 - kept.length))
        slots.push(new Slot(file, file.name));
    if (kept.length === 0)
        camera.reset();
    at('second').disabled = false;
    layOut();
    showTables();
}

const sample = () => open([new File([inline(at('sample').textContent.trim())], 'tile.laz')]);

function listen() {
    at('file').onchange = () => open(at('file').files);
    at('second').onchange = () => open(at('second').files, true);
    at('openSample').onclick = sample;
    for (const id of ['layout', 'drawing'])
        at(id).onchange = layOut;
    at('mode').onchange = setMode;
    at('grain').oninput = setMode;
    const button = (id, call) => { at(id).onclick = () => { call(); redraw(); }; };
    button('reset', () => camera.reset());
    button('above', () => camera.fromAbove());
    button('nearer', () => { camera.zoom *= 1.25; });
    button('farther', () => { camera.zoom /= 1.25; });
    at('saveLas').onclick = () => save('las');
    at('saveLaz').onclick = () => save('laz');
    at('savePng').onclick = async () => download(await views[0].png(), `${stemOf(slots[0].name)}.png`);
    at('place').onchange = () => showRecord(slots[0], Number(at('place').value));
    addEventListener('dragover', (event) => event.preventDefault());
    addEventListener('drop', (event) => {
        event.preventDefault();
        open(event.dataTransfer.files);
    });
    matchMedia('(prefers-color-scheme: dark)').addEventListener('change', redraw);
}

listen();
prepareDrawing();
document.body.dataset.state = 'ready';
if (location.hash === '#sample')
    sample();
