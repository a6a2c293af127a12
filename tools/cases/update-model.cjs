// What documents 01 and 02 (W-202) and docs/DECISIONS.md say of updates, state vectors, contents and the listing, in plain JavaScript over the columns of model.cjs:
// the expectation, made without our Rattle code and without Yjs.
'use strict'
const model = require('./model.cjs')
const { refuse, answer, within, cursor } = require('./cursor.cjs')
const { passed } = require('./any-model.cjs')
const { nowhere } = model

const CLIENT = 2n ** 53n - 1n
const CLOCK = 2n ** 31n - 1n // a clock, a clock length, form 1 parent info, an end
const UPDATE = 16777215
const CLIENTS = 64n // sections, delete-set clients, state-vector entries
const ANNOUNCED = 65535n
const KEYS = 256 // entries of form 2's list of keys
const TYPES = 6n // the highest type number
const NAMED = [3n, 5n] // types with a node name: an XML element and an XML hook

// ---- the two forms' fields, under the same names in the same order. A section's client and an info byte come with their place, a range with its clock's:
// what is refused later, 4, 5, 8 and an end, lies there.

const form1 = (update, mark, noted) => {
  const rest = cursor(update, 0, mark)
  const client = () => {
    const place = rest.place()
    return { value: rest.limited(CLIENT, 'client'), place }
  }
  const id = () => {
    const of = client().value
    return { client: of, clock: rest.limited(CLOCK, 'clock') }
  }
  return {
    rest,
    client,
    leftId: id,
    rightId: id,
    info: () => {
      const place = rest.place()
      return { value: rest.byte(), place }
    },
    text: rest.text,
    parentInfo: () => rest.limited(CLOCK, 'parent info'),
    length: () => rest.limited(CLOCK, 'length'),
    key: () => rest.text().part,
    // JSON text, which is not looked into.
    value: () => rest.text().part,
    typeNumber: () => {
      const place = rest.place()
      const number = rest.unsigned('type number')
      if (rest.place() - place > 1) noted.longType = true
      return number
    },
    newDeleteClient: () => {},
    range: () => {
      const place = rest.place()
      const clock = rest.limited(CLOCK, 'delete clock')
      return { clock, length: rest.limited(CLOCK, 'delete length'), place }
    }
  }
}

const COLUMNS = ['key', 'client', 'left', 'right', 'info', 'text', 'parent', 'type', 'length']

const form2 = (update, mark, strict) => {
  const rest = cursor(update, 0, mark)
  const flag = rest.byte() // of any value, strictly 0
  if (strict && flag !== 0) refuse(14, 0)
  const parts = {}
  const columns = {}
  for (const name of COLUMNS) {
    const part = rest.column(rest.unsigned('column length'))
    parts[name] = part
    columns[name] = update.slice(part.place, part.place + part.bytes)
  }
  // A column's own places, from its first byte on, are so many further on in the update.
  const drawn = (name, draw) => () => {
    const r = draw()
    if (r.number !== 0) refuse(r.number, parts[name].place + r.place, { column: true, what: r.what, value: r.value })
    mark(parts[name].place + r.from, parts[name].place + r.to)
    return r
  }
  // Values with their place: the first byte of their run.
  const values = (name, column) => {
    const next = drawn(name, column(columns[name]))
    return () => {
      const r = next()
      return { value: r.value, place: parts[name].place + r.from }
    }
  }
  const texts = model.texts(columns.text)
  if (texts.number !== 0) refuse(texts.number, parts.text.place + texts.place, { column: true, what: 'text opened' })
  mark(parts.text.place, parts.text.place + texts.start)
  const text = drawn('text', texts.draw)
  const client = values('client', model.numbers)
  const left = values('left', model.differences)
  const right = values('right', model.differences)
  const info = values('info', model.bytes)
  const parent = values('parent', model.bytes)
  const length = values('length', model.numbers)
  const keyNumber = values('key', model.differences)
  const typeNumber = values('type', model.numbers)
  const keys = []
  let end = 0n
  return {
    rest,
    client,
    leftId: () => {
      const of = client().value
      return { client: of, clock: left().value }
    },
    rightId: () => {
      const of = client().value
      return { client: of, clock: right().value }
    },
    info: () => {
      const { value, place } = info()
      return { value: Number(value), place }
    },
    text: () => {
      const t = text()
      const place = parts.text.place + t.place
      mark(place, place + t.value.length)
      return { part: { place, bytes: t.value.length }, units: t.units }
    },
    parentInfo: () => parent().value,
    length: () => {
      const { value, place } = length()
      return within(value, CLOCK, place, 'length')
    },
    // A number below the list's length is an earlier key; any other one takes the next text, which joins the list.
    key () {
      const { value, place } = keyNumber()
      if (value < BigInt(keys.length)) return keys[Number(value)]
      if (keys.length === KEYS) refuse(3, place, { what: 'key list' })
      keys.push(this.text().part)
      return keys[keys.length - 1]
    },
    value: blame => passed(rest, 1n, blame),
    typeNumber: () => typeNumber().value,
    newDeleteClient: () => {
      end = 0n
    },
    range: () => {
      const place = rest.place()
      const clock = within(end + rest.unsigned(), CLOCK, place, 'delete clock')
      const lengthPlace = rest.place()
      const length = within(rest.unsigned() + 1n, CLOCK, lengthPlace, 'delete length')
      end = clock + length
      return { clock, length, place }
    }
  }
}

// ---- blocks

const absent = { left: null, right: null, name: null, parent: null, key: null, part: null, mark: null, type: null }

// The rest of a block after its info byte: what the record keeps, without client and clock. What is wrong inside its content, a tag or a type number, lies
// at the info byte, as every 5.
const body = (f, info, place) => {
  if (info === 10) return { ...absent, kind: 'skip', length: f.rest.limited(CLOCK, 'Skip length') }
  if (info === 0) return { ...absent, kind: 'gc', length: f.length() }
  const item = { ...absent }
  if (info & 128) item.left = f.leftId()
  if (info & 64) item.right = f.rightId()
  if (!(info & 192)) {
    if (f.parentInfo() === 1n) item.name = f.text().part
    else item.parent = f.leftId()
    if (info & 32) item.key = f.text().part
  }
  switch (info & 31) {
    case 1: return { ...item, kind: 'deleted', length: f.length() }
    case 3: return { ...item, kind: 'binary', part: f.rest.part(f.rest.unsigned()), length: 1n }
    case 4: {
      const { part, units } = f.text()
      return { ...item, kind: 'text', part, length: units }
    }
    case 6: {
      const mark = f.key()
      return { ...item, kind: 'format', mark, part: f.value(place), length: 1n }
    }
    case 7: {
      const type = f.typeNumber()
      if (type > TYPES) refuse(5, place, { what: 'type number', value: type })
      return { ...item, kind: 'type', type, mark: NAMED.includes(type) ? f.key() : null, length: 1n }
    }
    case 8: {
      const length = f.length()
      return { ...item, kind: 'any', part: passed(f.rest, length, place), length }
    }
    default: return refuse(5, place, { what: 'content', value: info })
  }
}

// ---- the delete set's normal form: highest client first, clocks rising, no empties, joined where they overlap or touch
const joined = ranges => {
  const out = []
  const order = (a, b) => a < b ? -1 : a > b ? 1 : 0
  for (const r of [...ranges].sort((a, b) => order(b.client, a.client) || order(a.clock, b.clock))) {
    const last = out[out.length - 1]
    if (last === undefined || last.client !== r.client || last.clock + last.length < r.clock) out.push({ ...r })
    else if (r.clock + r.length > last.clock + last.length) last.length = r.clock + r.length - last.clock
  }
  return out
}

// ---- the delete set
const deleteSet = (f, rangeRows, noted) => {
  const ranges = []
  const deleteClients = []
  for (let named = f.rest.limited(CLIENTS, 'delete clients'); named > 0n; named--) {
    const client = f.rest.limited(CLIENT, 'delete client')
    deleteClients.push(client)
    f.newDeleteClient()
    for (let count = f.rest.unsigned(); count > 0n; count--) {
      const { clock, length, place } = f.range()
      within(clock + length, CLOCK, place, 'delete end')
      if (length === 0n) {
        noted.emptyRange = true
        continue
      }
      if (ranges.length >= rangeRows) refuse(8, place)
      ranges.push({ client, clock, length })
    }
  }
  return { ranges: joined(ranges), rangesRead: ranges.length, deleteClients }
}

// ---- the update

const NO_LIMIT = Infinity
// The information beside the answer is for whoever compares: `masked` says that an info byte had content number 0 and other bits, `longType` that form 1 spelt
// a type number in more than a byte, `emptyRange` that a delete range was empty; `deleteClients` has the delete-set clients as they were named. Strictly (W-205) the flag is 0, and every byte is marked as read in the end.
const readUpdate = (form, update, blockRows = NO_LIMIT, rangeRows = NO_LIMIT, strict = false) => {
  const noted = { masked: false, longType: false, emptyRange: false }
  const unread = strict ? new Set(update.keys()) : null
  const mark = (from, to) => {
    if (strict) for (let k = from; k < to; k++) unread.delete(k)
  }
  const r = answer(() => {
    if (form !== 1 && form !== 2) refuse(12, 0)
    if (update.length > UPDATE) refuse(3, 0)
    const f = form === 1 ? form1(update, mark, noted) : form2(update, mark, strict)
    const { rest } = f
    const blocks = []
    const clients = new Set()
    let announced = 0n
    for (let sections = rest.limited(CLIENTS, 'sections'); sections > 0n; sections--) {
      const count = rest.limited(ANNOUNCED - announced, 'blocks')
      announced += count
      const { value: client, place: clientPlace } = f.client()
      if (clients.has(client)) refuse(4, clientPlace, { what: 'section client' })
      clients.add(client)
      let clock = rest.limited(CLOCK, 'clock')
      for (let k = 0n; k < count; k++) {
        const { value: info, place } = f.info()
        if (info !== 0 && (info & 31) === 0) noted.masked = true
        const block = { client, clock, ...body(f, info, place) }
        clock = within(clock + block.length, CLOCK, place, 'end')
        const dropped = block.length === 0n && block.kind !== 'gc' && block.kind !== 'skip'
        if (dropped) continue
        if (blocks.length >= blockRows) refuse(8, place)
        blocks.push(block)
      }
    }
    const deleted = deleteSet(f, rangeRows, noted)
    // strictly, no byte of the update may stay that nothing read
    if (strict && unread.size > 0) refuse(15, Math.min(...unread))
    return { blocks, ...deleted }
  })
  return { ...r, ...noted }
}

// ---- content: the part of block n, after the whole update was read; it has no tables, so no 8
const content = (form, n, update) => {
  const r = readUpdate(form, update)
  if (r.number !== 0) return r
  const block = n < BigInt(r.blocks.length) ? r.blocks[Number(n)] : undefined
  if (block === undefined || !['binary', 'text'].includes(block.kind)) return nowhere(11)
  return { number: 0, part: update.slice(block.part.place, block.part.place + block.part.bytes) }
}

// ---- state vector: entries in reading order; a repeated client with its id. Its refusals have no place.
const readVector = vector => {
  const r = answer(() => {
    const rest = cursor(vector, 0)
    const entries = []
    for (let count = rest.limited(CLIENTS); count > 0n; count--) {
      const client = rest.limited(CLIENT)
      if (entries.some(e => e.client === client)) refuse(4, 0)
      entries.push({ client, clock: rest.limited(CLOCK) })
    }
    return { entries }
  })
  return r.number !== 0 ? nowhere(r.number) : r
}

// ---- held ids (W-206): a form 1 delete set from byte 0 on. Its refusals have no place.
const readHeld = (held, heldRows = NO_LIMIT) => {
  const r = answer(() => deleteSet(form1(held, () => {}, {}), heldRows, {}))
  return r.number !== 0 ? nowhere(r.number) : r
}

// ---- the listing program
const EMPTY = { 1: [0, 0], 2: [0, 0, 0, 0, 0, 0, 1, 0, 0, 0, 0, 0, 0] }
const equal = (a, b) => a.length === b.length && a.every((x, k) => x === b[k])

const listing = input => {
  const refused = ({ number, place }) => `refused ${number} at ${place}\n`
  if (input.length > 65536) return refused(nowhere(3))
  if (input.length === 0) return refused(nowhere(1))
  const form = input[0]
  const update = input.slice(1)
  if (form !== 1 && form !== 2) return refused(nowhere(12))
  if (equal([...update], EMPTY[form])) return 'empty\n'
  const r = readUpdate(form, update, 512, 1024)
  if (r.number !== 0) return refused(r)
  const lines = [
    `update form ${form} blocks ${r.blocks.length} ranges ${r.ranges.length}`,
    ...r.blocks.map(b => `${b.client} ${b.clock} ${b.length} ${b.kind}`),
    ...r.ranges.map(d => `${d.client} ${d.clock} ${d.length}`),
    'end'
  ]
  return lines.map(line => line + '\n').join('')
}

module.exports = { readUpdate, content, readVector, readHeld, listing, COLUMNS, EMPTY }
