'use strict';

// The one clock of the page: an open stream that says nothing for so many ms is no contact.
const SILENT_AFTER = 3000;
const AGAIN_AFTER = 1000;
const KEPT = 200;

const NOT_YET = 'no contact with the amplifier yet';
const ENDED = 'the amplifier has ended: these are its last figures';
const NOT_SENT = 'not sent: no contact with the amplifier';
const CUT_OFF = 'sent, and its answer did not come: look whether it was restarted';

const part = (id) => document.getElementById(id);
const copy = (id) => part(id).content.firstElementChild.cloneNode(true);
const nobody = copy('none');

// What the page remembers between messages; everything else stands in the document.
const known = { reading: null, ended: false, fresh: true, line: 0, watch: 0 };

// Written only where it differs: a selection survives, and nothing is announced twice.
function write(element, text) {
  if (element.textContent !== text) {
    element.textContent = text;
  }
}

function mark(element, attribute, value) {
  if (element.getAttribute(attribute) !== value) {
    element.setAttribute(attribute, value);
  }
}

function title(text) {
  if (document.title !== text) {
    document.title = text;
  }
}

function cut(list, most) {
  while (list.childElementCount > most) {
    list.lastElementChild.remove();
  }
}

function fill(track, silence, limit) {
  track.hidden = limit === 0;
  const share = limit === 0 ? 0 : Math.min(1, silence / limit);
  track.querySelector('.filled').style.width = `${100 * share}%`;
}

// The channels

function newStrip(number) {
  const strip = copy('strip');
  strip.dataset.channel = number;
  write(strip.querySelector('.number'), String(number));
  // A state is announced alone, so it has to say of which channel it is.
  strip.querySelector('.state').dataset.of = `channel ${number}: `;
  mark(strip.querySelector('.bar'), 'aria-label', `silence of the holder of channel ${number}`);
  return strip;
}

function showBar(bar, channel) {
  fill(bar, channel.silence, channel.limit);
  mark(bar, 'aria-valuenow', String(channel.silence));
  mark(bar, 'aria-valuemax', String(channel.limit));
  mark(bar, 'aria-valuetext', channel.left);
}

function showChannel(channel) {
  const channels = part('channels');
  const found = channels.querySelector(`[data-channel="${channel.channel}"]`);
  const strip = found ?? newStrip(channel.channel);
  strip.classList.toggle('locked', channel.holder !== null);
  strip.classList.toggle('muted', channel.mute === 'muted');
  for (const field of ['mute', 'state', 'since', 'left']) {
    write(strip.querySelector(`.${field}`), channel[field]);
  }
  showBar(strip.querySelector('.bar'), channel);
  // Put in place when it is filled: eight states at the start are no change to announce.
  if (found === null) {
    channels.append(strip);
  }
}

function showTitle(channels) {
  const locked = channels.filter((channel) => channel.holder !== null).length;
  title(`${locked === 0 ? 'all free' : `${locked} locked`} - the rack`);
}

// The connections

function showRow(list, [word, text], index) {
  if (list.childElementCount === 2 * index) {
    list.append(document.createElement('dt'), document.createElement('dd'));
  }
  write(list.children[2 * index], word);
  write(list.children[2 * index + 1], text);
}

function newCard(number) {
  const card = copy('card');
  card.dataset.connection = number;
  return card;
}

function showConnection(connection, index) {
  const connections = part('connections');
  const found = connections.querySelector(`[data-connection="${connection.n}"]`);
  const card = found ?? newCard(connection.n);
  write(card.querySelector('h3'), connection.name);
  fill(card.querySelector('.silence'), connection.silence, connection.limit);
  const rows = card.querySelector('dl');
  cut(rows, 2 * connection.rows.length);
  connection.rows.forEach((row, place) => showRow(rows, row, place));
  // Those that stay are in order already, so only a new one is put anywhere.
  if (found === null) {
    connections.insertBefore(card, connections.children[index] ?? null);
  }
}

function removeClosed(connections) {
  const open = new Set(connections.map((connection) => String(connection.n)));
  const cards = [...part('connections').querySelectorAll('.connection')];
  cards.filter((card) => !open.has(card.dataset.connection)).forEach((card) => card.remove());
}

function showConnections(connections) {
  removeClosed(connections);
  if (connections.length > 0) {
    nobody.remove();
  } else if (!nobody.isConnected) {
    part('connections').append(nobody);
  }
  connections.forEach(showConnection);
}

// The restart

function showReset(reset) {
  const armed = part('armed');
  armed.classList.toggle('armed', reset.armed);
  write(armed, reset.state);
}

function showLoss(list, text, index) {
  if (list.childElementCount === index) {
    list.append(document.createElement('li'));
  }
  write(list.children[index], text);
}

function showRestart(restart) {
  const lost = part('lost');
  lost.hidden = restart === null;
  if (restart === null) {
    return;
  }
  write(lost.querySelector('.when'), `restarted at ${restart.at} ms`);
  const list = lost.querySelector('ul');
  cut(list, restart.lost.length);
  restart.lost.forEach((text, index) => showLoss(list, text, index));
}

// What was sent and not answered is not told as not sent: it may have restarted.
async function ask(key) {
  const headers = { 'Content-Type': 'application/x-www-form-urlencoded' };
  const body = `key=${encodeURIComponent(key)}`;
  const answer = await fetch('/restart', { method: 'POST', headers, body }).catch(() => null);
  return answer === null ? NOT_SENT : answer.text().catch(() => CUT_OFF);
}

async function submit(event) {
  event.preventDefault();
  const [field, button, answer] = ['key', 'send', 'answer'].map(part);
  const pressed = document.activeElement === button;
  const asked = ask(field.value.trim());
  field.value = '';
  // Emptied first, so that the same answer a second time is announced too.
  write(answer, '');
  button.disabled = true;
  write(answer, (await asked).trim());
  button.disabled = false;
  // A button that is disabled loses the focus.
  if (pressed && document.activeElement === document.body) {
    button.focus();
  }
}

// The events

function newLine(at, text) {
  const line = copy('line');
  write(line.querySelector('.at'), at);
  write(line.querySelector('.text'), text);
  return line;
}

function newGap(first, last) {
  const text = first === last ? `line ${first} was not kept` : `lines ${first} to ${last} were not kept`;
  const gap = newLine('', text);
  gap.classList.add('gap');
  return gap;
}

function showLine(line) {
  const events = part('events');
  if (line.n > known.line + 1) {
    events.prepend(newGap(known.line + 1, line.n - 1));
  }
  events.prepend(newLine(`${line.at} ms`, line.text));
  known.line = line.n;
}

function showLines(lines) {
  if (known.fresh) {
    part('events').replaceChildren();
    known.line = 0;
    known.fresh = false;
  }
  lines.forEach(showLine);
  cut(part('events'), KEPT);
}

// The contact

function stale(text, short) {
  document.body.classList.add('stale');
  write(part('contact'), text);
  title(`${short} - the rack`);
}

function lose() {
  clearTimeout(known.watch);
  if (known.ended) {
    return;
  }
  const old = `no contact with the amplifier: the figures are those of ${known.reading} ms`;
  stale(known.reading === null ? NOT_YET : old, 'no contact');
}

function watch() {
  clearTimeout(known.watch);
  known.watch = setTimeout(lose, SILENT_AFTER);
}

function showContact(rack) {
  known.reading = rack.reading;
  known.ended = rack.ended;
  if (rack.ended) {
    stale(ENDED, 'ended');
  } else {
    document.body.classList.remove('stale');
    write(part('contact'), 'in contact');
    showTitle(rack.channels);
  }
}

function show(rack) {
  write(part('address'), rack.address);
  write(part('reading'), `${rack.reading} ms`);
  rack.channels.forEach(showChannel);
  showConnections(rack.connections);
  showReset(rack.reset);
  showRestart(rack.restart);
  showLines(rack.lines);
  showContact(rack);
}

function listen() {
  const stream = new EventSource('/events');
  stream.addEventListener('open', () => {
    known.fresh = true;
    watch();
  });
  stream.addEventListener('rack', (event) => {
    show(JSON.parse(event.data));
    watch();
  });
  stream.addEventListener('error', () => {
    lose();
    if (stream.readyState === EventSource.CLOSED) {
      setTimeout(listen, AGAIN_AFTER);
    }
  });
}

part('restart').addEventListener('submit', submit);
listen();
