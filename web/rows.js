// Rows of one height, of which only those in sight are drawn: tables of any length scroll at the same pace.
'use strict'

class Rows {
  /** `make` makes an empty row; `draw(row, n)` fills it with row n. Behind `head`, which stays in sight, rows are placed in `element`, which scrolls. */
  constructor(element, { height, head = null, make, draw }) {
    Object.assign(this, { element, height, head, make, draw, count: 0, drawn: new Map(), spare: [] })
    this.body = document.createElement('div')
    this.body.className = 'body'
    this.body.setAttribute('role', 'rowgroup')
    element.replaceChildren(...(head === null ? [] : [head]), this.body)
    element.addEventListener('scroll', () => this.later(), { passive: true })
    new ResizeObserver(() => this.later()).observe(element)
  }

  later() {
    if (this.asked) return
    this.asked = true
    requestAnimationFrame(() => {
      this.asked = false
      this.fill()
    })
  }

  /** So many rows, all drawn anew, from the first on. */
  set(count) {
    this.count = count
    this.body.style.height = `${count * this.height}px`
    this.element.setAttribute('aria-rowcount', String(count))
    this.element.classList.toggle('nothing', count === 0)
    this.element.scrollTop = 0
    this.redraw()
  }

  redraw() {
    for (const n of [...this.drawn.keys()]) this.drop(n)
    this.fill()
  }

  drop(n) {
    const row = this.drawn.get(n)
    row.hidden = true
    this.spare.push(row)
    this.drawn.delete(n)
  }

  /** The height that rows have in sight. */
  room() {
    return this.element.clientHeight - (this.head?.offsetHeight ?? 0)
  }

  fill() {
    const above = this.element.scrollTop
    const first = Math.max(0, Math.floor(above / this.height) - 4)
    const last = Math.min(this.count, Math.ceil((above + this.room()) / this.height) + 4)
    for (const n of [...this.drawn.keys()]) if (n < first || n >= last) this.drop(n)
    for (let n = first; n < last; n++) if (!this.drawn.has(n)) this.add(n)
  }

  add(n) {
    const row = this.spare.pop() ?? this.body.appendChild(this.make())
    row.hidden = false
    row.style.transform = `translateY(${n * this.height}px)`
    row.setAttribute('aria-rowindex', String(n + 1))
    row.dataset.n = String(n)
    this.drawn.set(n, row)
    this.draw(row, n)
  }

  /** Scrolls as little as shows row n, or, where it is far out of sight, so that it stands in the upper third. */
  show(n) {
    const [top, room, above] = [n * this.height, this.room(), this.element.scrollTop]
    if (top < above - room || top > above + 2 * room) this.element.scrollTop = Math.max(0, top - room / 3)
    else if (top < above) this.element.scrollTop = top
    else if (top + this.height > above + room) this.element.scrollTop = top + this.height - room
    this.redraw()
  }

  /** How many rows a page has. */
  page() {
    return Math.max(1, Math.floor(this.room() / this.height) - 1)
  }

  /** Where a key leads from row n, or null where it leads nowhere. */
  moved(key, n) {
    const to = { ArrowUp: n - 1, ArrowDown: n + 1, PageUp: n - this.page(), PageDown: n + this.page(), Home: 0, End: this.count - 1 }[key]
    return to === undefined || this.count === 0 ? null : Math.min(Math.max(to, 0), this.count - 1)
  }
}
