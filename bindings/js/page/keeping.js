// Where a text is kept: in the address of the page, and in the storage of the browser.

const KEY = "rigyomad text";

/** A longer text is not kept, because storing it holds up the page. */
const MOST_KEPT = 300_000;

/** A longer text has no link, because programs cut long addresses. */
const MOST_LINKED = 20_000;

/** The text in the address, which may have a sign of percent that is no escape. */
export function linked() {
  const part = location.hash.slice(1);
  try {
    return decodeURIComponent(part);
  } catch {
    return part;
  }
}

/** Puts a text into the address, and returns whether it has a link: a lone surrogate has none. */
export function link(text) {
  if (text.length > MOST_LINKED) return false;
  try {
    history.replaceState(null, "", `#${encodeURIComponent(text)}`);
    return true;
  } catch {
    return false;
  }
}

/** Keeps a text over a reload, in place of the one in the address. A browser may refuse storage. */
export function keep(text) {
  if (location.hash && linked() !== text) history.replaceState(null, "", location.pathname + location.search);
  if (text.length > MOST_KEPT) return;
  try {
    localStorage.setItem(KEY, text);
  } catch {
    // The text is not kept then.
  }
}

export function kept() {
  try {
    return localStorage.getItem(KEY);
  } catch {
    return null;
  }
}
