// What a person does with the page and sees of it. For web/test, which runs it in the page.
(() => {
  const $ = id => document.getElementById(id), text = id => $(id).textContent;
  const moment = () => new Promise(done => setTimeout(done, 5));
  const put = (id, value) => { $(id).value = value; $(id).dispatchEvent(new Event('input', { bubbles: true })); };
  const ended = async () => { do await moment(); while (!$('stop').hidden); };
  const isSeen = it => {
    const { top, bottom, height } = it.getBoundingClientRect();
    return height > 0 && top >= 0 && bottom <= innerHeight;
  };
  const rowsOf = it => ({
    doc: it.dataset.doc.includes('-') ? it.dataset.doc : Number(it.dataset.doc),
    title: it.querySelector('.title').textContent,
    text: it.querySelector('.text').textContent,
    says: it.querySelector('.says').textContent,
    marks: [...it.querySelectorAll('mark')].map(mark => mark.textContent),
    checked: Boolean(it.querySelector('.checked')),
    note: it.querySelector('.note')?.textContent ?? '',
    outside:
      [...it.querySelectorAll('p')].filter(part => !part.closest('.frame')).map(part => part.textContent).join(' '),
  });
  const seen = () => ({
    shown: !$('answer').hidden,
    kind: $('answer').className,
    verdict: text('verdict'),
    said: text('said'),
    line: text('line'),
    state: text('state'),
    rows: $('list').hidden ? [] : [...$('list').children].map(rowsOf),
    more: !$('more').hidden,
    hash: location.hash,
    checked: $('how').hidden ? '' : text('checked'),
    facts: $('how').hidden ? '' : text('facts'),
    other: !$('other').hidden,
  });
  const settled = async () => {
    for (let i = 0; document.querySelector('#list [aria-busy]') && i < 6000; i++) await moment();
    return seen();
  };
  const file = ({ name, base64 }) => {
    const files = new DataTransfer();
    files.items.add(new File([Uint8Array.from(atob(base64), it => it.charCodeAt(0))], name));
    return files;
  };
  return {
    seen,
    settled,

    // Types a query, and asks; returns what the page shows once all texts are there or are not.
    async ask({ query, all = false, root }) {
      if (root !== undefined) put('root', root);
      put('query', query);
      $(all ? 'all' : 'best').checked = true;
      const start = performance.now();
      $('go').click();
      await ended();
      const ms = performance.now() - start;
      return { ...await settled(), ms };
    },

    // The same, with another root typed while the question is on its way.
    async askAndType({ query, root, ms }) {
      put('query', query);
      $('go').click();
      await new Promise(done => setTimeout(done, ms));
      put('root', root);
      await ended();
      await new Promise(done => setTimeout(done, 2 * ms));
      return settled();
    },

    async more() {
      $('more').click();
      await ended();
      return settled();
    },

    // What of the results is on the screen.
    sight: () => ({
      heading: isSeen(document.querySelector('#list .title')),
      result: isSeen(document.querySelector('#list li')),
      width: document.documentElement.scrollWidth,
    }),

    // Opens the text of a result, and says what is open.
    async open({ at }) {
      document.querySelectorAll('#list .open')[at].click();
      for (let i = 0; $('whole').hidden && i < 4000; i++) await moment();
      return this.whole();
    },
    whole: () => ({
      title: text('whole-title'),
      text: text('whole-text'),
      hit: text('hit'),
      said: text('whole-said'),
      current: document.querySelector('.current')?.textContent ?? '',
      marks: $('whole-text').querySelectorAll('mark').length,
      isSeen: [...document.querySelectorAll('.current')].every(isSeen),
      laidOut: $('whole-text').classList.contains('laid-out'),
      focus: document.activeElement?.id,
      list: !$('list').hidden,
    }),

    async lie() {
      $('how').open = true;
      $('lie').click();
      while ($('lied').hidden) await moment();
      return { kind: $('lied').className, line: text('lied-line'), isSeen: isSeen($('lied')) };
    },

    // Saves the proof, and returns the file.
    async save() {
      const own = URL.createObjectURL;
      let blob;
      URL.createObjectURL = it => { blob = it; return own.call(URL, it); };
      $('save').click();
      while (!blob) await moment();
      URL.createObjectURL = own;
      let bytes = '';
      new Uint8Array(await blob.arrayBuffer()).forEach(it => { bytes += String.fromCharCode(it); });
      while (!text('done').startsWith('Saved')) await moment();
      return { base64: btoa(bytes), done: text('done') };
    },

    // Opens a saved file by the button, or drops it on the page.
    async file({ drop, ...it }) {
      const files = file(it);
      if (drop)
        document.body.dispatchEvent(new DragEvent('drop', { dataTransfer: files, bubbles: true, cancelable: true }));
      else {
        $('file').files = files.files;
        $('file').dispatchEvent(new Event('change', { bubbles: true }));
      }
      await ended();
      return settled();
    },

    // What a click copies.
    async copied({ id }) {
      let copied;
      Object.defineProperty(navigator, 'clipboard', {
        configurable: true,
        value: { writeText: async it => { copied = it; } },
      });
      $(id).click();
      while (copied === undefined) await moment();
      return copied;
    },

    // What the page says of another root, once it does.
    async offer() {
      for (let i = 0; $('offer').hidden && i < 2000; i++) await moment();
      return {
        kind: $('offer').className, verdict: text('offer-verdict'), root: text('offer-root'),
        take: !$('offer-tools').hidden,
      };
    },

    // Of each frame whether what it holds can draw outside of it.
    frames: () => [...document.querySelectorAll('.frame')].filter(it => it.offsetParent).map(it => {
      const { contain, overflow, borderTopWidth } = getComputedStyle(it);
      return { contain, overflow, border: borderTopWidth };
    }),

    // The least contrast of any text in sight with what is below it, by WCAG 2.
    leastContrast() {
      const parts = colour => colour.match(/[\d.]+/g).map(Number);
      const linear = it => it / 255 <= .03928 ? it / 255 / 12.92 : ((it / 255 + .055) / 1.055) ** 2.4;
      const light = ([r, g, b]) => .2126 * linear(r) + .7152 * linear(g) + .0722 * linear(b);
      const ground = it => {
        for (; it; it = it.parentElement) {
          const own = parts(getComputedStyle(it).backgroundColor);
          if (own.length < 4 || own[3] === 1) return own;
        }
        return [255, 255, 255];
      };
      const contrast = it => {
        const [dark, bright] = [light(parts(getComputedStyle(it).color)), light(ground(it))].sort((a, b) => a - b);
        return (bright + .05) / (dark + .05);
      };
      const all = document.querySelectorAll(
        'h1,h2,h3,p,label,legend,li,code,mark,span,a,summary,.text,button:not(:disabled),input');
      return Math.min(...[...all].filter(it => it.offsetParent && (it.value || it.textContent.trim())).map(contrast));
    },
  };
})()
