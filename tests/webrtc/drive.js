/* What tests/webrtc.sh does in the page of examples/webrtc: the trial that the address names, whose result is reported. */
const wait = ms => new Promise(done => setTimeout(done, ms));
const within = (ms, what, name) => Promise.race([what, wait(ms).then(() => { throw new Error(`${name}: not within ${ms} ms`); })]);
const say = text => fetch('/say', { method: 'POST', body: text });
const asked = new URLSearchParams(location.search);
const plain = data => typeof data == 'string' ? data : [...new Uint8Array(data)];
const came = new Map();       // label: the channels that the endpoint opened
connection.addEventListener('datachannel', event => came.set(event.channel.label, [...(came.get(event.channel.label) ?? []), event.channel]));
const describe = it => ({ label: it.label, protocol: it.protocol, id: it.id, ordered: it.ordered, maxRetransmits: it.maxRetransmits,
  maxPacketLifeTime: it.maxPacketLifeTime, negotiated: it.negotiated });
const until = async (test, ms) => { for (const end = performance.now() + ms; !test() && performance.now() < end;) await wait(5); return test(); };

/* All messages that a channel receives, from now on. */
function collect(channel) {
  const all = [];
  channel.addEventListener('message', event => all.push(plain(event.data)));
  return all;
}

const trials = {
  /* A file each way, and what each side says of it. `whole`: the page sends it by the longest messages that it may. */
  async file() {
    const length = +asked.get('length'), channel = await opened(openChannel('file'));
    const part = asked.get('whole') ? connection.sctp.maxMessageSize : PART;
    const bytes = randomBytes(length), begun = performance.now(), theirs = await sendFile(channel, bytes, () => {}, part), sent = performance.now();
    const back = await fetchFile(channel);
    return { sent: await sum(bytes), theirs, fetched: await sum(back.bytes), theirsFetched: back.theirs, length: back.bytes.byteLength, part,
      up: Math.round(sent - begun), down: Math.round(performance.now() - sent) };
  },

  /* Text and binary, also empty, on a channel of each kind, opened here, agreed on, and opened by the endpoint; each comes back. */
  async kinds(control) {
    const options = [{}, { ordered: false }, { maxRetransmits: 3, protocol: 'p' }, { ordered: false, maxPacketLifeTime: 5000 }, { negotiated: true, id: 100 }];
    control.send('negotiated 100');
    const channels = options.map((it, k) => openChannel(k ? 'ü' + k : '', it));
    await within(10000, Promise.all(channels.map(opened)), 'open');
    control.send('all');
    await until(() => came.size == 4, 10000);
    const all = [...channels, ...[...came.values()].flat()], back = all.map(collect);
    for (const channel of all) for (const data of ['ü', '', new Uint8Array([0, 255]), new Uint8Array(0), 'last']) channel.send(data);
    await until(() => back.every(it => it.length == 5), 10000);
    return { channels: all.map(describe), back };
  },

  /* Channels opened, used and closed, by the page and by the endpoint in turn, again and again. */
  async many(control) {
    const rounds = +asked.get('rounds'), count = +asked.get('count'), result = { rounds: 0, greatest: 0, wrong: [] };
    for (let round = 0; round < rounds; round++) {
      const channels = Array.from({ length: count }, (_, k) => openChannel(`m${k}`)), back = channels.map(collect);
      await within(60000, Promise.all(channels.map(opened)), `round ${round}: open`);
      channels.forEach(it => it.send(`${round} ${it.label}`));
      await until(() => back.every(it => it.length == 1), 60000);
      channels.forEach((it, k) => { if (back[k].length != 1 || back[k][0] != `${round} ${it.label}`) result.wrong.push([round, it.label, it.id, back[k]]); });
      channels.forEach((it, k) => k % 2 ? it.close() : control.send('close ' + it.label));
      result.greatest = Math.max(result.greatest, ...channels.map(it => it.id));
      await within(60000, Promise.all(channels.map(closed)), `round ${round}: close`);
      result.rounds++;
      await say(`round ${round}`);
    }
    return result;
  },

  /* Numbered messages on channels of limited reliability: what comes back of them. */
  async limited() {
    const result = {};
    for (const options of [{ ordered: false, maxRetransmits: 0 }, { ordered: true, maxRetransmits: 0 }, { ordered: false, maxPacketLifeTime: 100 }]) {
      const channel = await within(30000, opened(openChannel('limited', options)), 'limited'), back = collect(channel);
      for (let k = 0; k < 200; k++) { channel.send(`${k} ` + 'x'.repeat(500)); await wait(5); }
      await wait(3000);
      result[JSON.stringify(options)] = back;
    }
    return result;
  },

  /* The page's buttons: what a user does, and what the rows then show. */
  async buttons() {
    const rows = () => [...at('channels').rows].map(row => [...row.cells].slice(0, 6).map(cell => cell.textContent)), shown = [];
    const press = (label, text) => [...[...at('channels').rows].filter(row => row.cells[1].textContent == label).at(-1).querySelectorAll('button')]
      .find(it => it.textContent == text).click();
    const last = label => rows().filter(row => row[1] == label).at(-1) ?? [];
    const note = async (label, state, received) => {
      await until(() => last(label)[3] == state && last(label)[5] >= received, 10000);
      shown.push(last(label));
    };
    at('opening').ordered.checked = false;
    at('opening').limit.value = 'maxRetransmits';
    at('opening').requestSubmit();
    await note('chat', 'open', 0);
    press('chat', 'text');
    press('chat', '1,000 bytes');
    await note('chat', 'open', 2);
    press('chat', 'close');
    await note('chat', 'closed', 2);
    press('chat', 'open again');
    await note('chat', 'open', 0);
    at('negotiated').click();
    await note('negotiated', 'open', 0);
    press('negotiated', 'text');
    await note('negotiated', 'open', 1);
    at('theirs').click();
    await note('from the endpoint', 'open', 0);
    const files = [];
    for (const id of ['upload', 'fetch']) {
      at('file').textContent = '';
      at(id).click();
      await until(() => at('file').textContent, 60000);
      files.push(at('file').textContent.replace(/ after.*/, ''));
    }
    await wait(500);
    return { shown, files, numbers: at('numbers').textContent, drawn: at('picture').getContext('2d').getImageData(0, 0, 1984, 600).data.some(it => it) };
  },

  /* A program that sends each message back: a channel is opened, used and closed, twice, and ends of a message's range are tried. */
  async echo() {
    const rounds = [];
    for (const options of [{}, { ordered: false }]) {
      const channel = await within(10000, opened(openChannel('echo', options)), 'echo'), back = collect(channel);
      for (const data of ['ü', '', new Uint8Array([0, 255]), new Uint8Array(0), 'last']) channel.send(data);
      await until(() => back.length == 5, 10000);
      const large = randomBytes(65536), answer = message(channel);
      channel.send(large);
      const same = await sum(large) == await sum(await within(10000, answer, 'a large message'));
      channel.close();
      await within(10000, closed(channel), 'closed');
      rounds.push({ id: channel.id, back: back.slice(0, 5), same });
    }
    connection.close();
    return { rounds, off: [...document.querySelectorAll('button[id]')].filter(it => it.disabled).map(it => it.id) };
  },

  /* A program opens a channel by itself, sends back what it receives on it, and closes it if it is asked to. */
  async byProgram() {
    await until(() => came.has('from the program'), 10000);
    const [channel] = came.get('from the program'), back = collect(channel);
    for (const data of ['ü', new Uint8Array([0, 255])]) channel.send(data);
    await until(() => back.length == 2, 10000);
    channel.send('close');
    await within(10000, closed(channel), 'closed');
    connection.close();
    return { id: channel.id, back, state: channel.readyState };
  },

  /* The endpoint aborts. */
  async abort(control) {
    const others = [await opened(openChannel('one')), await opened(openChannel('two'))];
    control.send('abort');
    await within(10000, Promise.all([control, ...others].map(closed)), 'closed');
    return { states: [control, ...others].map(it => it.readyState), sctp: connection.sctp ? connection.sctp.state : null };
  },

  /* The page goes away. */
  async leave() {
    connection.close();
    return {};
  },

  /* Odd messages of the endpoint's: what the page sees of each row. */
  async odd() {
    const result = [];
    for (let row = 0; row < +asked.get('rows'); row++) {
      came.clear();
      const seen = [], messages = [];
      const listen = event => { seen.push(describe(event.channel)); event.channel.addEventListener('message', it => messages.push(plain(it.data))); };
      connection.addEventListener('datachannel', listen);
      const endpoint = await (await fetch(`/odd?row=${row}`)).json();
      await wait(50);
      connection.removeEventListener('datachannel', listen);
      result.push({ seen, messages, endpoint });
    }
    return { rows: result, agent: navigator.userAgent };
  },
};

(async () => {
  const control = await within(20000, ready, 'the control channel');
  return await trials[asked.get('trial')](control);
})().catch(fault => ({ fault: String(fault) }))
  .then(result => fetch('/done', { method: 'POST', body: JSON.stringify({ agent: navigator.userAgent, ...result }) }));
