'use strict';
// The host of the hooks in a page: it keeps the lines of each file's record, and hands them out for download. The page may
// have redefined the methods of arrays when it does, so it goes by indices.

var jlintPage = (function () {
  const LONGEST_RECORD = 268435456; // bytes
  const RECORD_FRAME = 64;
  const LONGEST_TEXT = 1000; // UTF-16 units

  const files = [];
  const encoder = new TextEncoder();
  const { encode } = TextEncoder.prototype;
  const { apply } = Reflect;
  const hooks = jlintHooks({
    longest: LONGEST_TEXT,
    write(n, lines) {
      const file = files[n];
      const bytes = apply(encode, encoder, [lines]);
      file.room -= bytes.length;
      if (file.room < 0) return false;
      file.last.next = { bytes, next: null }; // a list of its own, as the page may redefine those of the engine
      file.last = file.last.next;
      return true;
    }
  });

  function add(n, { name, head, table }) {
    const first = { bytes: null, next: null };
    const room = LONGEST_RECORD - head.length - RECORD_FRAME;
    files[n] = { name, head, room, first, last: first, file: hooks.file(table) };
    Object.defineProperty(window, 'J$_' + n, { value: files[n].file.J$ });
  }

  function pieces(file) {
    const list = [file.head, `ops ${file.file.counts().told}\n`];
    for (let piece = file.first.next; piece !== null; piece = piece.next) list[list.length] = piece.bytes;
    list[list.length] = 'end\n';
    return list;
  }

  function item(file, n) {
    const link = document.createElement('a');
    link.textContent = file.name;
    link.download = `${n}.record`;
    link.href = '#';
    link.onclick = () => {
      hooks.flush();
      link.href = URL.createObjectURL(new Blob(pieces(file), { type: 'text/plain' }));
    };
    file.item = document.createElement('li');
    file.item.appendChild(link);
    return file.item;
  }

  function writeInto(file, part, text) {
    const pre = file.item.appendChild(document.createElement('pre'));
    pre.className = part;
    pre.textContent = text;
  }
  function recordText(file) {
    const list = pieces(file);
    let text = '';
    for (let i = 0; i < list.length; i++) {
      text += typeof list[i] === 'string' ? list[i] : new TextDecoder().decode(list[i]);
    }
    return text;
  }
  function writeAll() {
    hooks.flush();
    for (let n = 0; n < files.length; n++) {
      if (!files[n]) continue;
      writeInto(files[n], 'record', recordText(files[n]));
      writeInto(files[n], 'left', files[n].file.counts().left);
    }
  }

  // A link for each record, which gives what was recorded until it is used. With `#text` in the address, or `#text=2000`
  // for what happens in the first 2 seconds, the records themselves are put into the page.
  function show(list) {
    for (let n = 0; n < files.length; n++) if (files[n]) list.appendChild(item(files[n], n));
    const text = /^#text(?:=(\d+))?$/.exec(location.hash);
    if (text && text[1]) setTimeout(writeAll, Number(text[1]));
    else if (text) writeAll();
  }
  return { add, show };
}());
