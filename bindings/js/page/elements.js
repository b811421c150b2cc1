// Elements of the page, by their ids, and new ones.

export const at = (id) => document.getElementById(id);

export function element(tag, content = "", parts = []) {
  const it = document.createElement(tag);
  it.textContent = content;
  it.append(...parts);
  return it;
}
