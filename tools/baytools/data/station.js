// Shows what the tool tells of each bay.
'use strict';

const OLD = 2;         // seconds since the last read of a bay that is shown as answering
const SILENT = 4000;   // ms since the tool told anything
const AGAIN = 5000;    // ms until a page that is one too many tries again
let heard = 0;
let shownText = '';

// What is to be said of a bay first, and how grave it is.
function news(bay, now) {
  const seconds = Math.round((now - bay.read) / 1000);
  if (!bay.port) return ['lost', `is not asked: ${bay.told}`];
  if (!bay.connected) return ['lost', `does not answer: ${bay.told}`];
  if (bay.barred) return ['lost', 'the server has another bay than the bay file'];
  if (seconds > OLD) return ['lost', `does not answer: nothing was read for ${seconds} s`];
  if (bay.process) return ['waits', bay.process];
  return ['good', 'answers'];
}

function switchRow(it) {
  const row = element('tr');
  const head = element('th', '', it.id);
  head.scope = 'row';
  const place = element('td', it.position === 'bad' ? 'place bad' : 'place', positionOf(it));
  const more = [qualityOf(it) === 'good' ? '' : qualityOf(it), ...notesOf(it)];
  place.append(...more.filter(Boolean).map((told) => element('span', 'why', told)));
  const releases = element('td', 'releases');
  for (const found of ['open', 'close'].map((way) => may(it, way))) {
    releases.append(element('span', found.free ? 'way free' : 'way', found.told));
  }
  row.append(head, place, releases);
  return row;
}

function table(bay) {
  const found = element('table');
  const head = element('tr');
  for (const title of ['Switch', 'Position', 'Releases']) {
    const cell = element('th', '', title);
    cell.scope = 'col';
    head.append(cell);
  }
  const top = element('thead');
  top.append(head);
  const body = element('tbody');
  body.append(...bay.switches.map(switchRow));
  found.append(top, body);
  return found;
}

function list(title, entries) {
  const items = element('ol');
  items.append(...entries.slice().reverse().map((it) => {
    const item = element('li');
    item.append(element('time', '', it.time),
      element('span', it.good === false ? 'refused' : '', it.told));
    return item;
  }));
  return entries.length ? [element('h3', '', title), items] : [];
}

// The process and the clients: of a server that doesn't answer nobody knows.
function links(bay) {
  const journal = bay.connected ? bay.journal : {...bay.journal, process: '', links: null};
  const told = journal.trouble ? [journal.trouble] : journal.process ? [journal.process] : [];
  if (journal.links) {
    told.push(journal.links.length === 0 ? 'no client is connected'
      : `clients: ${journal.links.map(([number, from]) => `${number} from ${from}`).join(', ')}`);
  }
  return told.map((line) => element('p', 'links', line));
}

function card(bay, now) {
  const [kind, told] = news(bay, now);
  const found = element('section', `bay ${kind}`);
  found.append(element('h2', '', bay.name));
  if (bay.port) found.append(element('p', 'quiet', `${bay.device}, port ${bay.port}`));
  found.append(element('p', `says ${kind}`, told));
  if (bay.switches.length && kind !== 'lost') found.append(table(bay));
  found.append(...list('Last movements', bay.moves));
  if (bay.journal) {
    found.append(...list('Last commands', bay.journal.commands), ...links(bay));
  }
  found.dataset.bay = bay.name;
  return found;
}

function connection(told, isGood) {
  byId('connection').textContent = told;
  byId('connection').className = isGood ? '' : 'lost';
}

function show(text) {
  heard = Date.now();
  const state = JSON.parse(text);
  const kinds = state.bays.map((bay) => news(bay, state.now)[0]);
  const count = (kind) => kinds.filter((it) => it === kind).length;
  const told = [`${count('good') + count('waits')} of ${kinds.length} answer`];
  if (count('waits')) told.push(`${count('waits')} without positions`);
  connection(told.join(', '), count('good') === kinds.length);
  const cards = state.bays.map((bay) => card(bay, state.now));
  const all = cards.map((it) => it.outerHTML).join('');
  if (all !== shownText) document.querySelector('main').replaceChildren(...cards);
  shownText = all;
  document.querySelector('main').classList.remove('stale');
}

function gone() {
  connection('this page is no longer told anything', false);
  document.querySelector('main').classList.add('stale');
}

// What the tool tells, but where this page is one page too many.
function listen() {
  const source = new EventSource('events');
  let isFull = false;
  source.onmessage = (event) => show(event.data);
  source.onerror = () => { if (!isFull) gone(); };
  source.addEventListener('full', (event) => {
    isFull = true;
    source.close();
    gone();
    connection(`not served: ${event.data}`, false);
    setTimeout(listen, AGAIN);
  });
}

listen();
setInterval(() => { if (heard && Date.now() - heard > SILENT) gone(); }, 1000);
