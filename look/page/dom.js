// Elements, made without any markup: all text of a journal goes through textContent.

/** An element with these properties and children; texts become text nodes. */
export function element(name, properties = {}, ...children) {
  const made = document.createElement(name);
  for (const [key, value] of Object.entries(properties)) {
    if (key.startsWith('on')) made.addEventListener(key.slice(2), value);
    else if (key in made) made[key] = value;
    else made.setAttribute(key, value);
  }
  made.append(...children.flat().filter((child) => child !== null && child !== undefined));
  return made;
}

export const byId = (id) => document.getElementById(id);

/** A long text that is shown cut, with a button for the whole of it. */
export function longText(text, most = 400) {
  if (text.length <= most) return element('code', {}, text);
  const code = element('code', {}, `${text.slice(0, most)}…`);
  const more = element('button', {
    className: 'link',
    onclick: () => { code.textContent = text; more.remove(); },
  }, `all ${text.length.toLocaleString('en')} characters`);
  return element('span', {}, code, ' ', more);
}

/** A list of items of which only the first are made, with a button for more. */
export function longList(items, make, most = 60) {
  const list = element('ul', { className: 'plain' });
  let shown = 0;
  const more = element('button', { className: 'link', onclick: () => show() });
  const show = () => {
    const next = items.slice(shown, shown + most);
    list.append(...[...next].map((item) => element('li', {}, make(item))));
    shown += next.length;
    more.textContent = `${(items.length - shown).toLocaleString('en')} more`;
    more.hidden = shown >= items.length;
  };
  show();
  return element('div', {}, list, more);
}
