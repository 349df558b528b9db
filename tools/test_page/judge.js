// Looks at how the page is laid out, in a browser (test_browser.py): what is cut off, what overlaps, what is hard to read.
(() => {
  const shown = [...document.body.querySelectorAll("*")].filter(one => one.getClientRects().length && !["SCRIPT", "CANVAS"].includes(one.tagName));
  const name = one => one.tagName.toLowerCase() + (one.id ? "#" + one.id : "") + " '" + one.textContent.slice(0, 24) + "'";
  const style = new Map(shown.map(one => [one, getComputedStyle(one)]));
  const ellipsis = one => style.get(one).textOverflow === "ellipsis";
  const inline = one => style.get(one).display === "inline";

  // the part of an element that is seen: what scrolls hides the rest
  function part(one) {
    let { left, top, right, bottom } = one.getBoundingClientRect();
    for (let at = one.parentElement; at && at !== document.body; at = at.parentElement) {
      if (getComputedStyle(at).overflow === "visible") continue;
      const box = at.getBoundingClientRect();
      [left, top, right, bottom] = [Math.max(left, box.left), Math.max(top, box.top), Math.min(right, box.right), Math.min(bottom, box.bottom)];
    }
    return { left, top, right, bottom };
  }

  const wide = shown.filter(one => !inline(one) && !ellipsis(one) && one.scrollWidth > one.clientWidth + 1 && one.clientWidth);
  if (document.documentElement.scrollWidth > window.innerWidth) wide.push(document.documentElement);

  // elements with a text or a control of their own
  const leaves = shown.filter(one => ["BUTTON", "INPUT"].includes(one.tagName) ||
    [...one.childNodes].some(node => node.nodeType === 3 && node.data.trim())).map(one => [one, part(one)]).filter(
    ([, r]) => r.right > r.left && r.bottom > r.top);
  const overlaps = [];
  leaves.forEach(([one, a], k) => leaves.slice(k + 1).forEach(([other, b]) => {
    if (one.contains(other) || other.contains(one)) return;
    if (Math.min(a.right, b.right) - Math.max(a.left, b.left) > 1 && Math.min(a.bottom, b.bottom) - Math.max(a.top, b.top) > 1)
      overlaps.push(name(one) + " and " + name(other));
  }));

  const rgb = text => (text.match(/[\d.]+/g) || []).map(Number);
  function ground(one) {
    for (let at = one; at; at = at.parentElement) {
      const found = rgb(getComputedStyle(at).backgroundColor);
      if (found.length === 3 || found[3] === 1) return found;
    }
    return [255, 255, 255];
  }
  function light(colour) {
    const [r, g, b] = colour.slice(0, 3).map(v => v / 255).map(v => v <= 0.04045 ? v / 12.92 : ((v + 0.055) / 1.055) ** 2.4);
    return 0.2126 * r + 0.7152 * g + 0.0722 * b;
  }
  const pale = leaves.filter(([one]) => one.type !== "range").map(([one]) => {
    const pair = [light(rgb(style.get(one).color)), light(ground(one))].sort((a, b) => b - a);
    return [one, (pair[0] + 0.05) / (pair[1] + 0.05)];
  }).filter(([, ratio]) => ratio < 4.5).map(([one, ratio]) => name(one) + " " + ratio.toFixed(2));

  const small = shown.filter(one => one.tagName === "BUTTON" && one.getBoundingClientRect().height < 18);
  const empty = TABS.filter(tab => tab === now.tab && !$("panel-" + tab).textContent.trim());
  return { wide: wide.map(name), overlaps, pale: [...new Set(pale)], small: small.map(name), empty };
})()
