// Keeps a copy of one page below an element of a document, by the operations that `live` prints of that page.
class Page {
  constructor(root) {
    this.document = root.ownerDocument;
    this.nodes = new Map([[0, root]]);
  }

  // Does one operation: what stands behind `op`, the page's name and a space in its line.
  apply(operation) {
    this.rest = operation;
    const verb = this.take(/^([a-z]+) /);
    const number = this.number();
    const node = this.nodes.get(number);
    if (verb === "remove") {
      node.parentNode.removeChild(node);
      this.forget(node);
    } else if (verb === "insert") {
      const place = this.number();
      this.put(node, place, this.made());
    } else if (verb === "move") {
      const parent = node.parentNode;
      parent.removeChild(node);
      this.put(parent, this.number(), node);
    } else if (verb === "text") {
      node.data = this.text();
    } else if (verb === "attr") {
      this.number(); // A document shows its attributes in any order.
      node.setAttribute(this.name(), this.text());
    } else if (verb === "unattr") {
      node.removeAttribute(this.name());
    }
  }

  // Puts a node so that it stands at a place among the children of another.
  put(parent, place, node) {
    parent.insertBefore(node, parent.childNodes[place] || null);
  }

  // The new node that is written next, with all below it.
  made() {
    this.take(/^(\()/);
    const number = this.number();
    const node = this.rest.startsWith('"') ? this.document.createTextNode(this.text()) : this.element();
    this.take(/^(\)) ?/);
    node.number = number;
    this.nodes.set(number, node);
    return node;
  }

  element() {
    const node = this.document.createElement(this.name());
    while (/^[a-z]/.test(this.rest)) node.setAttribute(this.name(), this.text());
    while (this.rest.startsWith("(")) node.appendChild(this.made());
    return node;
  }

  forget(node) {
    this.nodes.delete(node.number);
    for (const child of node.childNodes) this.forget(child);
  }

  number() { return Number(this.take(/^(\d+) ?/)); }
  name() { return this.take(/^([a-z][a-z0-9-]*)[ =]?/); }

  text() {
    const signs = { n: "\n", r: "\r", t: "\t" };
    return this.take(/^"((?:[^"\\]|\\.)*)" ?/).replace(/\\(.)/g, (_, sign) => signs[sign] || sign);
  }

  // Takes what a pattern finds at the front of the rest, and gives its part in parentheses.
  take(pattern) {
    const found = pattern.exec(this.rest);
    this.rest = this.rest.slice(found[0].length);
    return found[1];
  }
}
