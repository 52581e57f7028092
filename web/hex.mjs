// A view of a file's bytes: some rows of hex digits and characters, around one byte that is marked. Arrow and page keys move it.
import { button, element } from './dom.mjs';

const ROWS = 10;
const narrow = matchMedia('(max-width: 42rem)');

const digits = (number, count) => number.toString(16).padStart(count, '0');
const character = (byte) => (byte >= 0x20 && byte < 0x7f ? String.fromCharCode(byte) : '·');

export class HexView {
  #file;
  #parts;
  #marked = 0;
  #first = 0;
  #rows = element('div', { className: 'rows', tabIndex: 0, role: 'group' });
  #offset = element('input', { type: 'number', min: 0, step: 1 });
  #where = element('p', { className: 'where' });

  /** `parts` give bytes the color of the part that they stand in; none for a refused file. */
  constructor(name, file, parts) {
    this.#file = file;
    this.#parts = parts;
    this.#offset.max = file.length;
    this.#rows.setAttribute('aria-label', `Bytes of ${name}; arrow and page keys move`);
    this.#rows.onkeydown = (event) => this.#key(event);
    const form = element('form', {}, element('label', {}, 'Offset ', this.#offset), element('button', { textContent: 'Go' }));
    form.onsubmit = (event) => {
      event.preventDefault();
      this.show(Math.min(Math.max(0, Math.trunc(Number(this.#offset.value))), file.length));
    };
    form.append(button('Earlier', () => this.#move(-ROWS)), button('Later', () => this.#move(ROWS)));
    this.element = element('div', { className: 'hex' }, form, this.#where, this.#rows);
    narrow.addEventListener('change', () => this.show(this.#marked));
  }

  get #width() {
    return narrow.matches ? 8 : 16;
  }

  /** Shows the rows around this byte, and marks it. The offset after the last byte is one, too: a byte may be missing there. */
  show(offset) {
    this.#marked = offset;
    this.#offset.value = String(offset);
    this.#first = offset - (offset % this.#width) - 3 * this.#width;
    this.#move(0);
  }

  #key(event) {
    const last = Math.ceil(this.#file.length / this.#width);
    const rows = { ArrowUp: -1, ArrowDown: 1, PageUp: -ROWS, PageDown: ROWS, Home: -last, End: last }[event.key];
    if (rows === undefined) return;
    event.preventDefault();
    this.#move(rows);
  }

  #move(rows) {
    const last = Math.floor(this.#file.length / this.#width) * this.#width;
    const latest = Math.max(0, last - (ROWS - 1) * this.#width);
    this.#first = Math.min(Math.max(0, this.#first + rows * this.#width), latest);
    // The row after the last byte is shown where it has the mark.
    const shown = this.#file.length + (this.#marked === this.#file.length ? 1 : 0);
    const end = Math.min(this.#first + ROWS * this.#width, shown);
    this.#rows.replaceChildren();
    for (let at = this.#first; at < end; at += this.#width) this.#rows.append(this.#row(at));
    this.#where.textContent = this.#describe();
  }

  #row(start) {
    const hex = element('span', { className: 'bytes' });
    const text = element('span', { className: 'text' });
    for (let at = start; at < start + this.#width; at++) {
      const byte = this.#file[at];
      const shown = at === this.#marked ? 'mark' : 'span';
      const missing = at === this.#file.length && at === this.#marked;
      const color = this.#partAt(at)?.kind ?? '';
      hex.append(element(shown, { className: color, textContent: byte === undefined ? (missing ? '--' : '  ') : digits(byte, 2) }), ' ');
      text.append(element(shown, { className: color, textContent: byte === undefined ? ' ' : character(byte) }));
    }
    return element('div', {}, element('span', { className: 'offset', textContent: digits(start, 6) }), hex, text);
  }

  #partAt(offset) {
    return this.#parts.find(({ start, length }) => offset >= start && offset < start + length);
  }

  #describe() {
    const offset = this.#marked;
    const byte = this.#file[offset];
    if (byte === undefined) return `Offset ${offset} (hex ${digits(offset, 1)}): the end of the file`;
    const part = this.#partAt(offset);
    return `Offset ${offset} (hex ${digits(offset, 1)}): ${digits(byte, 2)}${part === undefined ? '' : `, ${part.name}`}`;
  }
}
