// A client that knows the protocol's messages and no more, and what it does: it runs unchanged in a browser and over `ws`.
// Subscribes to the list home, adds a task of its name, waits for as many tasks as there are clients, finishes its own, waits until all are
// finished, asks for what is refused, and closes. The promise is of what it was told.
function talk(WebSocket, url, name, clients) {
  const socket = new WebSocket(url), tasks = new Map(), heard = [], told = { name };
  let wake = () => {};
  const say = message => socket.send(JSON.stringify(message));

  async function until(test) {
    for (;;) {
      const found = test();
      if (found) return found;
      await new Promise(next => wake = next);
    }
  }

  const message = (msg, test) => until(() => heard.find(it => it.msg === msg && test(it)));

  async function call(id, method, ...params) {
    say({ msg: 'method', id, method, params });
    await message('updated', it => it.methods.includes(id));
    return heard.find(it => it.msg === 'result' && it.id === id);
  }

  socket.onmessage = ({ data }) => {
    const it = JSON.parse(data);
    if (it.collection === 'tasks') {
      if (it.msg === 'added') tasks.set(it.id, it.fields);
      if (it.msg === 'changed') Object.assign(tasks.get(it.id), it.fields);
      if (it.msg === 'removed') tasks.delete(it.id);
    }
    heard.push(it);
    wake();
  };

  async function visit() {
    await new Promise((done, failed) => [socket.onopen, socket.onerror] = [done, failed]);
    say({ msg: 'connect', version: '1', support: ['1'] });
    told.session = typeof (await message('connected', () => true)).session;
    say({ msg: 'sub', id: 's', name: 'list', params: ['home'] });
    await message('ready', it => it.subs.includes('s'));
    await call('1', 'addList', 'home', 'Home', 'ann');
    const made = (await call('2', 'addTask', 'home', `from ${name}`)).result;
    told.made = tasks.get(made)?.title;
    await until(() => tasks.size === clients);
    await call('3', 'finishTask', made, 'home');
    await until(() => [...tasks.values()].every(it => it.done));
    told.again = (await call('4', 'finishTask', made, 'home')).error.error;
    told.unknown = (await call('5', 'nothing')).error.error;
    say({ msg: 'sub', id: 't', name: 'nothing', params: [] });
    told.nosub = (await message('nosub', it => it.id === 't')).error.error;
    say({ msg: 'ping', id: 'p' });
    told.pong = (await message('pong', () => true)).id;
    say({ msg: 'method', id: '6', method: 'addTask', params: ['home', 0.5] });
    told.fraction = (await message('error', () => true)).reason;
    told.tasks = [...tasks.values()].map(it => it.title).sort();
    const closed = new Promise(done => socket.onclose = done);
    socket.close(1000, 'bye');
    const { code, wasClean } = await closed;
    return { ...told, code, wasClean };
  }

  return visit();
}
