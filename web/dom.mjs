// Elements made of a name, properties and children. Text goes in as text, never as markup.
export function element(name, properties = {}, ...children) {
  const made = document.createElement(name);
  for (const [property, value] of Object.entries(properties)) {
    if (property.startsWith('aria-') || property.startsWith('data-') || property === 'role') made.setAttribute(property, value);
    else made[property] = value;
  }
  made.append(...children);
  return made;
}

export const button = (text, onclick, properties = {}) => element('button', { type: 'button', textContent: text, onclick, ...properties });
