'use strict';
// Replaces a part of the page by a new one, and changes only what differs. So the browser lays out only what changed,
// and the focus and the scrolled places stay.

// Gives a part the children of another one, which is not in the page.
function becomeLike(part, other) {
  const former = [...part.childNodes], wanted = [...other.childNodes];
  wanted.forEach((child, index) => {
    const old = former[index];
    if (!old) part.append(child);
    else if (old.nodeName !== child.nodeName) old.replaceWith(child);
    else if (old.nodeType === Node.TEXT_NODE) old.data === child.data || (old.data = child.data);
    else if (!old.isEqualNode(child)) { becomeLike(old, child); takeAttributes(old, child); }
  });
  for (const old of former.slice(wanted.length)) old.remove();
}

function takeAttributes(part, other) {
  for (const name of part.getAttributeNames()) if (!other.hasAttribute(name)) part.removeAttribute(name);
  for (const name of other.getAttributeNames()) {
    const value = other.getAttribute(name);
    if (part.getAttribute(name) !== value) part.setAttribute(name, value);
  }
}
