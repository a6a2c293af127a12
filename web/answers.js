// What is shown now, and what the library answers of it.
'use strict'

const $ = id => document.getElementById(id)

/** An element with a class and children; a text is a child. */
const element = (tag, name = '', ...children) => {
  const made = document.createElement(tag)
  if (name !== '') made.className = name
  made.append(...children)
  return made
}
/** A button that looks like a link. */
const link = (name, words, action) => {
  const made = element('button', `link ${name}`, words)
  made.type = 'button'
  made.addEventListener('click', action)
  return made
}
const many = (count, what) => `${count.toLocaleString('en')} ${what}${count === 1 ? '' : 's'}`
const hexByte = byte => byte.toString(16).padStart(2, '0')
const idWords = id => id === null ? '' : `(${id.client}, ${id.clock})`
/** So many ids of a client, from a clock on. */
const idsWords = ({ client, clock, length }) => {
  if (length === 0) return 'none'
  return length === 1 ? `(${client}, ${clock})` : `(${client}, ${clock}) to (${client}, ${clock + length - 1})`
}

/** The bytes, their name and a note on them; the form that is asked for, and the one that was read; what reading came to, in this form and in the other; the parts
 * that form 2 is cut into; the block, the byte and the part that are chosen; the tab. */
const now = {
  name: '',
  note: '',
  bytes: new Uint8Array(),
  asked: 'both',
  form: 1,
  read: null,
  refused: null,
  strict: null,
  other: null,
  parts: [],
  block: null,
  byte: null,
  part: null,
  tab: 'blocks'
}
let library = null

/** The answer of a call, or its refusal. */
const attempt = call => {
  try {
    return { answer: call(), refused: null }
  } catch (e) {
    if (!(e instanceof wairokabi.Refused)) throw e
    return { answer: null, refused: e }
  }
}

/** What reading comes to in a form: what was read, or why it is refused; and why it is refused strictly. */
const reading = (form, bytes) => {
  const { answer: read, refused } = attempt(() => library.read(form, bytes))
  const strict = read === null ? refused : attempt(() => library.readStrict(form, bytes)).refused
  return { form, read, refused, strict }
}

/** Of both forms the one that leaves no byte unread; else the one that reads, if anything is in it; else the one with more in it. Where neither has anything: form
 * 2, if its nine columns can be cut. */
const chosen = (one, two, bytes) => {
  const size = ({ read }) => read === null ? 0 : read.blocks.length + read.ranges.length
  for (const good of [r => r.strict === null, r => size(r) > 0]) {
    if (good(one) !== good(two)) return good(one) ? one : two
    if (good(one)) return size(two) > size(one) ? two : one
  }
  return bytes[0] === 0 && columns.whole(bytes) ? two : one
}

/** The byte that is blamed, by reading or by strict reading, with its number; null where none is. */
const blame = () => now.refused ?? now.strict

// ---- which block a byte belongs to

/** The fields of a block that are parts of the update, how they are lit, and what they are called. */
const ROLES = [['part', 'stored', 'stored part'], ['name', 'name', 'parent name'], ['key', 'key', 'key'], ['mark', 'mark', 'mark']]

/** All parts of all blocks by place. Two of them are apart, or the same: in form 2 several marks may be one key. */
let places = []
const setPlaces = blocks => {
  places = []
  blocks.forEach((block, n) => {
    ROLES.forEach(([field], role) => {
      const part = block[field]
      if (part !== null && part.bytes > 0) places.push({ from: part.place, to: part.place + part.bytes, n, role })
    })
  })
  places.sort((a, b) => a.from - b.from || a.n - b.n)
}

/** The first of these parts that ends behind a place. */
const firstBehind = place => {
  let [low, high] = [0, places.length]
  while (low < high) {
    const middle = (low + high) >> 1
    if (places[middle].to > place) high = middle
    else low = middle + 1
  }
  return low
}
const partsAt = place => {
  const found = []
  for (let k = firstBehind(place); k < places.length && places[k].from <= place; k++) found.push(places[k])
  return found
}

// ---- which block draws a byte, as the library explains it

/** What each field of an explanation is lit as. */
const LIGHTS = {
  'block count': 'head', client: 'head', 'first clock': 'head', info: 'info', 'parent info': 'info', 'left client': 'left', 'left clock': 'left',
  'right client': 'right', 'right clock': 'right', 'parent client': 'parent', 'parent clock': 'parent', 'skip length': 'length', 'gc length': 'length', 'deleted length': 'length',
  type: 'length', 'list length': 'length', 'parent name': 'name', key: 'key', 'mark key': 'mark', 'key text': 'mark', 'node name': 'mark', binary: 'stored', text: 'stored',
  'mark value': 'stored', 'list values': 'stored'
}

/** No more blocks are kept explained. */
const MOST_TOLD = 4096
let told = new Map()
const forgetTold = () => {
  told = new Map()
}

/** The draws that made block n, in reading order, as the library explains them. */
const explained = n => {
  if (!told.has(n)) {
    if (told.size === MOST_TOLD) forgetTold()
    told.set(n, library.explain(now.form, now.bytes, n))
  }
  return told.get(n)
}

// ---- what each byte is of, for its colour

/** The colour of a column of form 2; of `text` those of stored parts, though names and keys stand there too. */
const COLUMN_LIGHTS = { key: 'mark', client: 'head', 'left clock': 'left', 'right clock': 'right', info: 'info', text: 'stored', 'parent info': 'info', type: 'length', length: 'length' }
/** Where there are more blocks, what stands in line keeps the colour of its part: each block asked for is a reading. */
const MOST_COLOURED = 1000

let colours = null
const forgetColours = () => {
  colours = null
}

/** A colour for each byte, by its name, in the order of bytes; '' where there is none. */
const coloursOf = () => {
  if (colours !== null) return colours
  colours = new Array(now.bytes.length).fill('')
  const paint = (from, to, light) => {
    for (let at = from; at < to; at++) if (colours[at] === '') colours[at] = light
  }
  for (const { from, to, role } of places) paint(from, to, ROLES[role][1])
  const blocks = now.read?.blocks ?? []
  const few = now.read !== null && blocks.length <= MOST_COLOURED
  const begin = now.parts.find(({ role }) => role === 'rest')?.from ?? 0
  let end = begin
  for (let n = 0; few && n < blocks.length; n++) {
    for (const line of explained(n)) {
      for (const { place, bytes } of spansOf(line)) {
        paint(place, place + bytes, LIGHTS[line.field])
        if (place >= begin) end = Math.max(end, place + bytes)
      }
    }
  }
  for (const { role, name, from, to } of now.parts) if (role === 'column') paint(from, to, COLUMN_LIGHTS[name])
  if (!few) return colours
  // in line, before the last draw of a block: counts, and blocks that are dropped; behind it the delete set
  paint(begin, end, 'head')
  paint(end, now.bytes.length, 'deletes')
  return colours
}

/** The bytes of a line: those that it was drawn from, and those that it leads to. */
const spansOf = ({ place, bytes, part }) => [...(place === null ? [] : [{ place, bytes }]), ...(part === null ? [] : [part])]
const isIn = (at, { place, bytes }) => place <= at && at < place + bytes
/** The lines of block n that a byte belongs to. */
const linesAt = (n, at) => explained(n).filter(line => spansOf(line).some(span => isIn(at, span)))

/** Which blocks draw from a column of form 2; from any other part of a file all do. */
const DRAWS_FROM = {
  key: block => block.mark !== null,
  'left clock': block => block.left !== null || block.parent !== null,
  'right clock': block => block.right !== null,
  text: block => block.name !== null || block.key !== null || block.kind === 'text' || block.mark !== null,
  'parent info': block => block.left === null && block.right === null && block.kind !== 'gc' && block.kind !== 'skip',
  type: block => block.kind === 'type',
  length: block => ['gc', 'deleted', 'any'].includes(block.kind)
}

/** The part of the file that a byte lies in, and the numbers of the blocks that draw from it. */
const drawersOf = at => {
  const { name = '', from = 0, to = now.bytes.length } = now.parts.find(part => part.from <= at && at < part.to) ?? {}
  const draws = DRAWS_FROM[name] ?? (() => true)
  return { from, to, numbers: now.read.blocks.flatMap((block, n) => draws(block) ? [n] : []) }
}

/** The first block that draws a byte, or the next one behind block n; null where none does. Later blocks draw from later places of each part, so halving finds it. */
const drawerOf = (at, behind = -1) => {
  const { from, to, numbers } = drawersOf(at)
  const end = n => Math.max(0, ...explained(n).filter(({ place, bytes }) => place !== null && bytes > 0 && place >= from && place < to).map(({ place, bytes }) => place + bytes))
  let [low, high] = [0, numbers.length]
  while (low < high) {
    const middle = (low + high) >> 1
    // a block with a key that was read before draws no text
    let some = middle
    while (some < high && end(numbers[some]) === 0) some++
    if (some === high || end(numbers[some]) > at) high = middle
    else low = some + 1
  }
  while (low < numbers.length && numbers[low] <= behind) low++
  while (low < numbers.length && end(numbers[low]) === 0) low++
  return low < numbers.length && linesAt(numbers[low], at).length > 0 ? numbers[low] : null
}
