// Draws every frame that the zoomed one leads to or comes from; data-x and data-w are shares of the whole. WIDTH and
// MARGIN are written before this.
const frames = [...document.querySelectorAll('g.frame')], space = WIDTH - 2 * MARGIN;
const say = text => { document.getElementById('said').textContent = text; };
const of = (frame, name) => Number(frame.dataset[name]);
function zoom(chosen) {
  const left = of(chosen, 'x'), width = of(chosen, 'w'), depth = of(chosen, 'd'), slack = 1e-9;
  for (const frame of frames) {
    const x = of(frame, 'x'), w = of(frame, 'w'), below = of(frame, 'd') < depth;
    const shown = below ? x <= left + slack && x + w >= left + width - slack
                        : x >= left - slack && x + w <= left + width + slack;
    frame.style.display = shown ? '' : 'none';
    if (!shown) continue;
    const at = below ? MARGIN : MARGIN + (x - left) / width * space, size = below ? space : w / width * space;
    const [box, label] = [frame.querySelector('rect'), frame.querySelector('text')];
    box.setAttribute('x', at);
    box.setAttribute('width', Math.max(size - 0.3, 0.1));
    box.style.opacity = below ? 0.5 : 1;
    label.setAttribute('x', at + 3);
    label.textContent = fitted(frame.dataset.n, size);
  }
}
function fitted(name, size) {
  const letters = Math.floor((size - 6) / 6.7), all = [...name];
  return letters < 3 ? '' : all.length <= letters ? name : all.slice(0, letters - 2).join('') + '..';
}
function search(text) {
  let share = 0, until = -1, wanted;
  try { wanted = text && new RegExp(text, 'i'); } catch (error) { say('not a pattern'); return; }
  const found = frames.filter(frame => {
    const is = wanted && wanted.test(frame.dataset.n);
    frame.classList.toggle('found', Boolean(is));
    return is;
  });
  for (const frame of found.sort((a, b) => of(a, 'x') - of(b, 'x') || of(a, 'd') - of(b, 'd')))
    if (of(frame, 'x') >= until - 1e-9) { share += of(frame, 'w'); until = of(frame, 'x') + of(frame, 'w'); }
  say(wanted ? `${found.length} frames, ${(100 * share).toFixed(2)} % of the counts` : '');
}
for (const frame of frames) {
  frame.addEventListener('click', () => zoom(frame));
  frame.addEventListener('mouseenter', () => say(frame.querySelector('title').textContent));
}
document.getElementById('search').addEventListener('input', event => search(event.target.value));
document.getElementById('whole').addEventListener('click', () => zoom(frames[0]));
