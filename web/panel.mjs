// The panel: files are dropped or chosen, and each is shown in a card.
import { load } from './bpg.mjs';
import { Card } from './card.mjs';

const byId = (id) => document.getElementById(id);
const bpg = await load();
let cards = [];

function equal(first, second) {
  return first.length === second.length && first.every((byte, k) => byte === second[k]);
}

// Two accepted files show the same picture exactly when their canonical forms are equal.
function update(news = '') {
  const accepted = cards.filter((card) => card.accepted);
  for (const card of accepted) {
    card.sameAs(accepted.filter((other) => other !== card && equal(card.canonical, other.canonical)).map(({ name }) => name));
  }
  const count = `${cards.length} ${cards.length === 1 ? 'file' : 'files'}: ${accepted.length} accepted, ${cards.length - accepted.length} refused`;
  byId('summary').textContent = [news, cards.length === 0 ? 'No file yet.' : `${count}.`].join(' ').trim();
  byId('clear').hidden = cards.length === 0;
}

function remove(card) {
  card.element.remove();
  cards = cards.filter((other) => other !== card);
  update();
  byId('choose').focus();
}

async function add(files) {
  const unread = [];
  for (const file of files) {
    try {
      const card = new Card(bpg, file.name, new Uint8Array(await file.arrayBuffer()), () => remove(card));
      cards.push(card);
      byId('files').append(card.element);
    } catch (error) {
      unread.push(`${file.name} could not be read (${error.message}).`);
    }
  }
  update(unread.join(' '));
}

byId('choose').onchange = async ({ target }) => {
  await add([...target.files]);
  // So that the same file can be chosen again.
  target.value = '';
};
byId('clear').onclick = () => {
  cards = [];
  byId('files').replaceChildren();
  update();
  byId('choose').focus();
};
addEventListener('dragover', (event) => {
  event.preventDefault();
  byId('drop').classList.add('over');
});
addEventListener('dragleave', (event) => {
  if (event.relatedTarget === null) byId('drop').classList.remove('over');
});
addEventListener('drop', (event) => {
  event.preventDefault();
  byId('drop').classList.remove('over');
  add([...event.dataTransfer.files]);
});
update();
