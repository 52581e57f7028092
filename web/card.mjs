// What the panel shows of one file.
import { BpgRefusal } from './bpg.mjs';
import { button, element } from './dom.mjs';
import { HexView } from './hex.mjs';
import { bytesText, fileParts, KINDS, particulars, tagName, timeText } from './parts.mjs';

/** What a call answers, or its refusal. */
function attempt(call) {
  try {
    return call();
  } catch (refusal) {
    if (refusal instanceof BpgRefusal) return refusal;
    throw refusal;
  }
}

const particular = ([name, words]) => element('div', {}, element('dt', { textContent: name }), element('dd', { textContent: words }));
const section = (title, ...children) => element('section', {}, element('h3', { textContent: title }), ...children);

/** The card of a file: `accepted`, `canonical` (the bytes of its canonical form) and `element`. */
export class Card {
  #hex;
  #bytes;
  #same = element('p', { className: 'same' });

  constructor(bpg, name, file, remove) {
    this.name = name;
    this.#bytes = element('details', { className: 'bytes-of' });
    const record = attempt(() => bpg.read(file));
    this.accepted = !(record instanceof BpgRefusal);
    const partition = this.accepted ? bpg.partition(file) : undefined;
    const parts = this.accepted ? fileParts(record, partition) : [];
    this.#hex = new HexView(name, file, parts);
    this.#bytes.append(element('summary', { textContent: 'Bytes' }), this.#hex.element);
    const verdict = element('p', { className: 'verdict', textContent: this.accepted ? 'accepted' : 'refused' });
    const title = element('h2', { textContent: name });
    const head = element('header', {}, title, verdict, element('p', { className: 'size', textContent: bytesText(file.length) }));
    head.append(button('Remove', remove, { 'aria-label': `Remove ${name}` }));
    this.element = element('article', { className: this.accepted ? 'accepted' : 'refused', 'aria-label': name }, head);
    if (this.accepted) this.#showAccepted(bpg, file, record, parts, partition);
    else this.element.append(this.#refusal(record), this.#bytes);
    this.#showAt(this.accepted ? 0 : record.offset, !this.accepted);
  }

  /** Says which other files show the same picture. */
  sameAs(names) {
    this.#same.textContent = names.length === 0 ? '' : `Same picture as ${names.join(', ')}`;
  }

  #showAccepted(bpg, file, record, parts, partition) {
    this.canonical = bpg.canonicalize(file);
    this.element.append(
      element('dl', {}, ...particulars(record).map(particular)),
      section('Parts', this.#bar(parts), this.#legend(partition)),
      element(
        'div',
        { className: 'columns' },
        section('Entries', ...this.#entries(bpg, file, record)),
        section('Frames', ...this.#frames(bpg, file, record)),
        section('Canonical form', ...this.#canonicalForm(file)),
      ),
      this.#bytes,
    );
  }

  #showAt(offset, open) {
    this.#hex.show(offset);
    if (open) this.#bytes.open = true;
  }

  // A refusal in words, with the way to its byte.
  #refusal({ status, offset, meaning }) {
    const open = button(`offset ${offset}`, () => this.#goTo(offset), { className: 'link' });
    return element('p', { className: 'refusal' }, element('strong', { textContent: `Refused ${status}` }), ' at ', open, `: ${meaning}.`);
  }

  #goTo(offset) {
    this.#showAt(offset, true);
    this.#hex.element.scrollIntoView({ block: 'nearest' });
  }

  // One tab stop; the arrow keys go from part to part.
  #bar(parts) {
    // Two parts for each of 64 entries have room in a narrow window, too.
    const bar = element('div', { className: parts.length > 40 ? 'bar dense' : 'bar', role: 'toolbar', 'aria-label': 'Parts of the file in order' });
    for (const [k, { kind, name, start, length }] of parts.entries()) {
      const words = `${name}: at ${start}, ${bytesText(length)}`;
      const piece = button('', () => this.#goTo(start), { className: kind, title: words, 'aria-label': words, tabIndex: k === 0 ? 0 : -1 });
      piece.style.flexGrow = length;
      bar.append(piece);
    }
    bar.onkeydown = (event) => {
      const step = { ArrowRight: 'nextElementSibling', ArrowLeft: 'previousElementSibling' }[event.key];
      const next = step && document.activeElement[step];
      if (!next) return;
      document.activeElement.tabIndex = -1;
      next.tabIndex = 0;
      next.focus();
    };
    return bar;
  }

  #legend(partition) {
    const item = ({ kind, name, bytes }) => element('li', {}, element('span', { className: `swatch ${kind}` }), `${name} ${bytes(partition).toLocaleString('en')}`);
    const items = KINDS.map(item);
    return element('ul', { className: 'legend' }, ...items);
  }

  #entries(bpg, file, record) {
    if (record.entries.length === 0) return [element('p', { textContent: 'none' })];
    const cell = (text, name = 'td') => element(name, { textContent: text });
    const rows = record.entries.map(({ tag, start, length }) => {
      const open = button(String(start), () => this.#goTo(start), { className: 'link', 'aria-label': `Bytes at ${start}` });
      return element('tr', {}, cell(tagName(tag)), element('td', {}, open), cell(length.toLocaleString('en')));
    });
    const head = element('tr', {}, cell('entry', 'th'), cell('offset', 'th'), cell('length', 'th'));
    const table = element('table', {}, element('thead', {}, head), element('tbody', {}, ...rows));
    const deep = record.entries.some(({ tag }) => tag === 4) ? attempt(() => bpg.checkThumbnails(file)) : undefined;
    return deep instanceof BpgRefusal ? [table, element('p', { textContent: 'Thumbnails:' }), this.#refusal(deep)] : [table];
  }

  #frames(bpg, file, record) {
    const durations = attempt(() => bpg.frames(file));
    if (durations instanceof BpgRefusal) return [this.#refusal(durations)];
    if (!record.animationFlag) return [element('p', { textContent: '1 frame, still' })];
    const period = record.framePeriodNum / record.framePeriodDen;
    const total = durations.reduce((sum, duration) => sum + duration, 0) * period;
    const { loopCount } = record;
    const times = loopCount === 1 ? 'played once' : `played ${loopCount} times, ${timeText(loopCount * total)} in all`;
    const loop = `one loop takes ${timeText(total)}, ${loopCount === 0 ? 'played forever' : times}`;
    const words = `${durations.length} frames, a period of ${record.framePeriodNum}/${record.framePeriodDen} s; ${loop}`;
    const titled = (duration) => ({ textContent: timeText(duration * period), title: `${duration} ${duration === 1 ? 'period' : 'periods'}` });
    const items = Array.from(durations, (duration) => element('li', titled(duration)));
    const list = element('ol', { className: 'frames', tabIndex: 0, 'aria-label': 'How long each frame is shown' }, ...items);
    return [element('p', { textContent: words }), list];
  }

  #canonicalForm(file) {
    const saved = file.length - this.canonical.length;
    const itself = saved === 0 && this.canonical.every((byte, k) => byte === file[k]);
    const compared = saved === 0 ? 'as many as' : `${saved.toLocaleString('en')} fewer than`;
    const words = itself ? 'This file is its own canonical form.' : `${bytesText(this.canonical.length)}, ${compared} the file.`;
    const save = button('Download', () => this.#download(), { 'aria-label': `Download the canonical form of ${this.name}` });
    return [element('p', { className: 'canonical' }, words, save), this.#same];
  }

  #download() {
    const url = URL.createObjectURL(new Blob([this.canonical], { type: 'application/octet-stream' }));
    element('a', { href: url, download: `${this.name.replace(/\.bpg$/i, '')}.canonical.bpg` }).click();
    // The browser reads it after the click.
    setTimeout(() => URL.revokeObjectURL(url), 60000);
  }
}
