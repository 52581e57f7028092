// The page in headless Chromium: files are dropped and chosen, and what it shows is checked, by mouse and keyboard, in a wide and in a narrow
// window. Pictures are kept under target/web.
import assert from 'node:assert/strict';
import { mkdirSync, readFileSync, rmSync, writeFileSync } from 'node:fs';
import { createServer } from 'node:http';
import { extname, join } from 'node:path';
import { fileURLToPath } from 'node:url';
import { load, MAX_FILE } from '../bpg.mjs';
import { Browser, installed } from './browser.mjs';
import { A, B, loop } from './samples.mjs';

const chromium = installed();
if (chromium === undefined) {
  console.log('page: skipped, Chromium is not installed');
  process.exit(0);
}

const web = fileURLToPath(new URL('..', import.meta.url));
const kept = join(web, '../target/web');
const folder = join(kept, 'files');
rmSync(folder, { recursive: true, force: true });
mkdirSync(folder, { recursive: true });
const stored = (name, bytes) => {
  writeFileSync(join(folder, name), Uint8Array.from(bytes));
  return join(folder, name);
};

const TYPES = { '.html': 'text/html', '.mjs': 'text/javascript', '.css': 'text/css', '.wasm': 'application/wasm' };
const server = createServer((request, response) => {
  try {
    const name = request.url === '/' ? 'index.html' : request.url.slice(1);
    response.writeHead(200, { 'content-type': TYPES[extname(name)] });
    response.end(readFileSync(join(web, name)));
  } catch {
    response.writeHead(404).end();
  }
});
await new Promise((resolve) => server.listen(0, '127.0.0.1', resolve));

const browser = await Browser.start(chromium);
setTimeout(() => {
  console.log('page: FAILED, it took more than 90 seconds');
  process.exit(1);
}, 90000).unref();
const faults = [];
browser.on('Runtime.exceptionThrown', ({ exceptionDetails }) => faults.push(exceptionDetails.exception?.description ?? exceptionDetails.text));
browser.on('Log.entryAdded', ({ entry }) => faults.push(entry.text));
for (const domain of ['Page', 'Runtime', 'Log', 'DOM']) await browser.send(`${domain}.enable`);

const size = (width, height) => browser.send('Emulation.setDeviceMetricsOverride', { width, height, deviceScaleFactor: 1, mobile: false });
const card = (name) => `document.querySelector('article[aria-label="${name}"]')`;
const text = (selector) => browser.value(`${selector}.innerText`);
const cards = (count) => browser.until(`document.querySelectorAll('article').length === ${count}`);
const focused = () => browser.value('document.activeElement.getAttribute("aria-label") ?? document.activeElement.id');

const spoiled = [...B];
spoiled[9] = 7;
const tests = {
  async 'the page loads and waits for files'() {
    await size(1100, 900);
    await browser.send('Page.navigate', { url: `http://127.0.0.1:${server.address().port}/` });
    await browser.until(`document.getElementById('summary')?.textContent === 'No file yet.'`);
  },

  async 'dropped files are shown'() {
    const files = { 'loop.bpg': loop(), 'a.bpg': A, 'b.bpg': B, 'spoiled.bpg': spoiled, 'cut.bpg': A.slice(0, 9) };
    await browser.drop(Object.entries(files).map(([name, bytes]) => stored(name, bytes)));
    await cards(5);
    assert.equal(await text('document.getElementById("summary")'), '5 files: 3 accepted, 2 refused.');
  },

  async 'particulars, entries and frames are those of the file'() {
    const shown = await text(card('loop.bpg'));
    for (const words of ['1280 × 720', '4:2:0', 'YCbCr, BT 601', 'animated', '3,159 bytes']) assert.ok(shown.includes(words), words);
    const row = `(row) => [...row.cells].map((cell) => cell.innerText).join(' ')`;
    const rows = await browser.value(`[...${card('loop.bpg')}.querySelectorAll('tbody tr')].map(${row})`);
    assert.deepEqual(rows, ['EXIF 16 155', 'ICC profile 174 560', 'XMP 737 266', 'thumbnail 1006 203', 'animation 1211 5', 'tag 300 1219 7']);
    assert.ok(shown.includes('12 frames, a period of 1/10 s; one loop takes 2.8 s, played 3 times, 8.4 s in all'));
    const frames = await browser.value(`[...${card('loop.bpg')}.querySelectorAll('.frames li')].map((frame) => frame.innerText)`);
    assert.deepEqual(frames, Array.from({ length: 12 }, (_, k) => (k % 3 === 2 ? '0.5 s' : '0.1 s')));
  },

  async 'the bar has the parts in order, and they make up the file'() {
    const labels = await browser.value(`[...${card('loop.bpg')}.querySelectorAll('.bar button')].map((part) => part.getAttribute('aria-label'))`);
    let end = 0;
    for (const label of labels) {
      const [, start, length] = label.match(/at (\d+), ([\d,]+) bytes?$/).map((number) => Number(number.replaceAll(',', '')));
      assert.equal(start, end, label);
      end = start + length;
    }
    assert.equal(end, loop().length);
    const names = labels.map((label) => label.split(':')[0]);
    assert.deepEqual([names[0], names[1], names[2], ...names.slice(-2)], ['head', 'entry head of EXIF', 'payload of EXIF', 'HEVC headers', 'HEVC data']);
  },

  async 'the legend has the partition of the file, and the parts of the bar add up to it'() {
    const file = Uint8Array.from(loop());
    const wanted = Object.values((await load()).partition(file)).map((count) => count.toLocaleString('en'));
    const legend = await browser.value(`[...${card('loop.bpg')}.querySelectorAll('.legend li')].map((item) => item.innerText)`);
    const names = ['head', 'entry heads', 'payloads', 'HEVC headers', 'HEVC data'];
    assert.deepEqual(legend.map((item) => item.trim()), names.map((name, k) => `${name} ${wanted[k]}`));
    const kinds = await browser.value(`[...${card('loop.bpg')}.querySelectorAll('.bar button')].map((part) => [part.className, Number(part.style.flexGrow)])`);
    const sum = (kind) => kinds.filter(([name]) => name === kind).reduce((total, [, length]) => total + length, 0);
    assert.deepEqual(['head', 'entry-head', 'payload', 'headers', 'data'].map((kind) => sum(kind).toLocaleString('en')), wanted);
  },

  async 'files of one picture say so'() {
    assert.ok((await text(card('a.bpg'))).includes('Same picture as b.bpg'));
    assert.ok((await text(card('b.bpg'))).includes('Same picture as a.bpg'));
    assert.ok(!(await text(card('loop.bpg'))).includes('Same picture'));
    assert.ok((await text(card('a.bpg'))).includes('This file is its own canonical form.'));
    assert.ok((await text(card('loop.bpg'))).includes('3,157 bytes, 2 fewer than the file.'));
  },

  async 'a refused file shows number, words, place and the byte'() {
    assert.ok((await text(card('spoiled.bpg'))).includes('Refused 10 at offset 9: the picture data length misses the end of the file.'));
    assert.equal(await browser.value(`${card('spoiled.bpg')}.querySelector('details').open`), true);
    assert.equal(await text(`${card('spoiled.bpg')}.querySelector('.bytes mark')`), '07');
    assert.ok((await text(card('cut.bpg'))).includes('Refused 2 at offset 9'));
    assert.ok((await text(card('cut.bpg'))).includes('Offset 9 (hex 9): the end of the file'));
    await browser.click(`${card('a.bpg')}.querySelector('.refusal button')`);
    assert.equal(await text(`${card('a.bpg')}.querySelector('.where')`), 'Offset 14 (hex e): 26, HEVC data');
  },

  async 'the canonical form is downloaded'() {
    await browser.send('Browser.setDownloadBehavior', { behavior: 'allow', downloadPath: folder, eventsEnabled: true });
    const done = new Promise((resolve) => browser.on('Browser.downloadProgress', ({ state }) => state === 'completed' && resolve()));
    await browser.click(`${card('loop.bpg')}.querySelector('.canonical button')`);
    await done;
    const form = (await load()).canonicalize(Uint8Array.from(loop()));
    assert.ok(readFileSync(join(folder, 'loop.canonical.bpg')).equals(form));
  },

  async 'it works by keyboard'() {
    await browser.value(`document.getElementById('choose').focus()`);
    await browser.key('Tab');
    assert.equal(await focused(), 'clear');
    await browser.key('Tab');
    assert.equal(await focused(), 'Remove loop.bpg');
    await browser.key('Tab');
    assert.equal(await focused(), 'head: at 0, 13 bytes');
    await browser.key('ArrowRight');
    await browser.key('ArrowRight');
    assert.equal(await focused(), 'payload of EXIF: at 16, 155 bytes');
    await browser.key('Enter', 'Enter', '\r');
    assert.equal(await text(`${card('loop.bpg')}.querySelector('.where')`), 'Offset 16 (hex 10): 45, payload of EXIF');
    await browser.value(`${card('loop.bpg')}.querySelector('.rows').focus()`);
    const first = () => text(`${card('loop.bpg')}.querySelector('.offset')`);
    await browser.key('PageDown');
    await browser.key('ArrowDown');
    assert.equal(await first(), '0000b0');
    await browser.key('End');
    assert.equal(await first(), '000bc0');
  },

  async 'a file above the limit and one at it are shown'() {
    const large = new Uint8Array(MAX_FILE).fill(0x55);
    large.set([...A, 0x80]);
    const { root } = await browser.send('DOM.getDocument');
    const { nodeId } = await browser.send('DOM.querySelector', { nodeId: root.nodeId, selector: '#choose' });
    const files = [stored('large.bpg', large), stored('larger.bpg', Buffer.concat([large, Uint8Array.of(1)]))];
    await browser.send('DOM.setFileInputFiles', { nodeId, files });
    await cards(7);
    assert.ok((await text(card('large.bpg'))).includes('1 frame, still'));
    assert.ok((await text(card('larger.bpg'))).includes('Refused 1 at offset 0: the file has more than 16,777,216 bytes.'));
    files.forEach((file) => rmSync(file));
    for (const name of ['large.bpg', 'larger.bpg']) await browser.click(`${card(name)}.querySelector('header button')`);
    await cards(5);
  },

  async 'pictures of a wide and a narrow window, in which nothing is cut off'() {
    for (const [name, width] of [['wide', 1100], ['narrow', 390]]) {
      await size(width, 900);
      await browser.until(`innerWidth === ${width}`);
      await browser.until('document.documentElement.scrollWidth <= innerWidth', 5);
      await browser.until(`[...document.querySelectorAll('.rows')].every((rows) => rows.scrollWidth <= rows.clientWidth)`, 5);
      writeFileSync(join(kept, `page-${name}.png`), await browser.picture());
    }
  },

  async 'files are removed'() {
    await browser.click(`document.getElementById('clear')`);
    await cards(0);
    assert.equal(await text('document.getElementById("summary")'), 'No file yet.');
  },

  async 'nothing went wrong in the page'() {
    assert.deepEqual(faults, []);
  },
};

let failed = 0;
for (const [name, test] of Object.entries(tests)) {
  try {
    await test();
  } catch (error) {
    failed++;
    console.log(`FAILED ${name}\n${error.stack}`);
  }
}
await browser.stop();
server.close();
console.log(`page: ${Object.keys(tests).length} tests, ${failed} failed; pictures in target/web`);
process.exit(failed === 0 ? 0 : 1);
