// A second reader of updates, written from docs/FORMAT.md alone: for each block that is kept the draws that made it, as the twelve words of a line that the header
// describes. It is asked only for updates that read, so it refuses nothing.

const FIELD = {
  blocks: 2, client: 3, firstClock: 4, ownClock: 5, info: 6, skip: 7, gc: 8, leftClient: 9, leftClock: 10, rightClient: 11, rightClock: 12, parentInfo: 13, parentName: 14,
  parentClient: 15, parentClock: 16, key: 17, deleted: 18, binary: 19, text: 20, markKey: 21, markValue: 22, type: 23, node: 24, count: 25, values: 26, keyText: 27
}
const [IN_LINE, RUN, ENDLESS] = [0, 1, 2]

/** Bytes from a place on; a column ends before the update does. */
class Bytes {
  constructor(all, at = 0, end = all.length) {
    Object.assign(this, { all, at, end })
  }

  byte() {
    return this.all[this.at++]
  }

  unsigned() {
    let value = 0
    for (let scale = 1; ; scale *= 128) {
      const byte = this.byte()
      value += byte % 128 * scale
      if (byte < 128) return value
    }
  }

  signed() {
    const first = this.byte()
    let size = first % 64
    for (let [scale, more] = [64, first >= 128]; more; scale *= 128) {
      const byte = this.byte()
      size += byte % 128 * scale
      more = byte >= 128
    }
    return { minus: first % 128 >= 64, size }
  }

  skip(count) {
    this.at += count
  }
}

/** A column of runs. `begin` reads a run's bytes and says its value and how often it stands, Infinity for a byte without a count. */
class Runs {
  constructor(bytes, begin) {
    Object.assign(this, { bytes, begin, left: 0 })
  }

  draw() {
    if (this.left === 0) {
      const from = this.bytes.at
      this.run = { from, ...this.begin(this.bytes) }
      this.run.bytes = this.bytes.at - from
      this.left = this.run.times
    }
    this.left--
    const { from, bytes, value, times } = this.run
    const stand = times === Infinity ? [from, bytes, ENDLESS, 0, 0] : [from, bytes, RUN, times - this.left, times]
    return { value, stand }
  }
}

const numbers = bytes => new Runs(bytes, b => {
  const { minus, size } = b.signed()
  return { value: size, times: minus ? b.unsigned() + 2 : 1 }
})
const byteRuns = bytes => new Runs(bytes, b => ({ value: b.byte(), times: b.at === b.end ? Infinity : b.unsigned() + 1 }))

/** Differences: each from the value before, at first from 0. */
class Differences {
  constructor(bytes) {
    this.last = 0
    this.runs = new Runs(bytes, b => {
      const { minus, size } = b.signed()
      return { value: Math.floor((minus ? -size : size) / 2), times: size % 2 === 1 ? b.unsigned() + 2 : 1 }
    })
  }

  draw() {
    const { value: difference, stand } = this.runs.draw()
    const base = this.last
    this.last = base + difference
    return { value: this.last, stand, rise: [base, difference < 0 ? 2 : 1, Math.abs(difference)] }
  }
}

/** Texts: the bytes of all of them, then how many units each has. */
class Texts {
  constructor(bytes) {
    const size = bytes.unsigned()
    this.at = bytes.at
    this.all = bytes.all
    this.units = numbers(new Bytes(bytes.all, bytes.at + size, bytes.end))
  }

  draw() {
    const { value, stand } = this.units.draw()
    const place = this.at
    for (let left = value; left > 0;) {
      const first = this.all[this.at]
      const size = first < 0x80 ? 1 : first < 0xe0 ? 2 : first < 0xf0 ? 3 : 4
      this.at += size
      left -= size === 4 ? 2 : 1
    }
    return { value, stand, part: [place, this.at - place] }
  }
}

const unitsIn = bytes => new TextDecoder('utf-8', { ignoreBOM: true }).decode(bytes).length

/** Over a plain value. */
const skipValue = bytes => {
  switch (bytes.byte()) {
    case 125: return bytes.signed()
    case 124: return bytes.skip(4)
    case 123: return bytes.skip(8)
    case 122: return bytes.skip(8)
    case 119: return bytes.skip(bytes.unsigned())
    case 118:
      for (let n = bytes.unsigned(); n > 0; n--) {
        bytes.skip(bytes.unsigned())
        skipValue(bytes)
      }
      return
    case 117:
      for (let n = bytes.unsigned(); n > 0; n--) skipValue(bytes)
      return
    case 116: return bytes.skip(bytes.unsigned())
  }
}

/** What is in line in both forms. */
class Line {
  /** `heads` are places and lengths of what no block draws. */
  constructor(rest, heads) {
    Object.assign(this, { rest, heads })
  }

  inLine(read) {
    const from = this.rest.at
    const value = read()
    return { value, stand: [from, this.rest.at - from, IN_LINE, 0, 0] }
  }

  number() {
    return this.inLine(() => this.rest.unsigned())
  }

  /** Bytes led by their length; `size` says what their value is. */
  led(size) {
    const { value: bytes, stand } = this.number()
    const part = [this.rest.at, bytes]
    this.rest.skip(bytes)
    return { value: size(this.rest.all.subarray(part[0], this.rest.at)), stand, part }
  }

  binary() {
    return this.led(bytes => bytes.length)
  }

  values(count) {
    const from = this.rest.at
    for (let n = 0; n < count; n++) skipValue(this.rest)
    return { value: this.rest.at - from, stand: [from, 0, IN_LINE, 0, 0], part: [from, this.rest.at - from] }
  }
}

class Form1 extends Line {
  constructor(update) {
    super(new Bytes(update), [])
  }

  client() { return this.number() }
  leftClock() { return this.number() }
  rightClock() { return this.number() }
  info() { return this.inLine(() => this.rest.byte()) }
  parentInfo() { return this.number() }
  type() { return this.number() }
  length() { return this.number() }
  text() { return this.led(unitsIn) }
  key() { return [this.binary()] }
  markValue() { return this.binary() }
}

class Form2 extends Line {
  constructor(update) {
    const bytes = new Bytes(update)
    bytes.byte() // the flag
    const columns = []
    const heads = [[0, 1]]
    for (let n = 0; n < 9; n++) {
      const from = bytes.at
      const size = bytes.unsigned()
      heads.push([from, bytes.at - from])
      columns.push(new Bytes(update, bytes.at, bytes.at + size))
      bytes.skip(size)
    }
    super(bytes, heads)
    const [key, client, left, right, info, text, parent, type, length] = columns
    const from = text.at
    const texts = new Texts(text)
    heads.push([from, text.at - from])
    Object.assign(this, {
      keyNumbers: new Differences(key), clients: numbers(client), lefts: new Differences(left), rights: new Differences(right), infos: byteRuns(info), texts,
      parents: byteRuns(parent), types: numbers(type), lengths: numbers(length), keys: []
    })
  }

  client() { return this.clients.draw() }
  leftClock() { return this.lefts.draw() }
  rightClock() { return this.rights.draw() }
  info() { return this.infos.draw() }
  parentInfo() { return this.parents.draw() }
  type() { return this.types.draw() }
  length() { return this.lengths.draw() }
  text() { return this.texts.draw() }
  markValue() { return this.values(1) }

  /** A key's number; where it is new its text too. */
  key() {
    const number = this.keyNumbers.draw()
    if (number.value < this.keys.length) return [{ ...number, part: this.keys[number.value] }]
    const text = this.text()
    this.keys.push(text.part)
    return [{ ...number, part: text.part }, text]
  }
}

/** The lines of each block that is kept; the lines of what is not: of a block that is dropped, and of the head of its section; and the places and lengths of what no
 * block draws. */
export const explained = (form, update) => {
  const r = form === 1 ? new Form1(update) : new Form2(update)
  const words = (field, { value, stand, rise = [0, 0, 0], part = [0, 0] }) => [field, value, ...stand, ...rise, ...part]
  const [kept, others] = [[], []]
  const sections = r.number()
  r.heads.push(sections.stand.slice(0, 2))
  for (let n = 0; n < sections.value; n++) {
    const head = []
    const headed = (field, draw) => {
      head.push(words(field, draw))
      return draw.value
    }
    const blocks = headed(FIELD.blocks, r.number())
    headed(FIELD.client, r.client())
    const first = headed(FIELD.firstClock, r.number())
    let clock = first
    others.push(...head)
    for (let k = 0; k < blocks; k++) {
      const own = []
      const told = (field, draw) => {
        own.push(words(field, draw))
        return draw.value
      }
      const keyed = field => r.key().forEach((draw, k) => told(k === 0 ? field : FIELD.keyText, draw))
      const info = told(FIELD.info, r.info())
      let length = 1
      if (info === 10) length = told(FIELD.skip, r.number())
      else if (info === 0) length = told(FIELD.gc, r.length())
      else {
        if (info >= 128) {
          told(FIELD.leftClient, r.client())
          told(FIELD.leftClock, r.leftClock())
        }
        if (info % 128 >= 64) {
          told(FIELD.rightClient, r.client())
          told(FIELD.rightClock, r.rightClock())
        }
        if (info < 64) {
          if (told(FIELD.parentInfo, r.parentInfo()) === 1) told(FIELD.parentName, r.text())
          else {
            told(FIELD.parentClient, r.client())
            told(FIELD.parentClock, r.leftClock())
          }
          if (info % 64 >= 32) told(FIELD.key, r.text())
        }
        switch (info % 32) {
          case 1: length = told(FIELD.deleted, r.length()); break
          case 3: told(FIELD.binary, r.binary()); break
          case 4: length = told(FIELD.text, r.text()); break
          case 6:
            keyed(FIELD.markKey)
            told(FIELD.markValue, r.markValue())
            break
          case 7: {
            const type = told(FIELD.type, r.type())
            if (type === 3 || type === 5) keyed(FIELD.node)
            break
          }
          case 8:
            length = told(FIELD.count, r.length())
            told(FIELD.values, r.values(length))
        }
      }
      if (info !== 10 && info !== 0 && length === 0) others.push(...own)
      else kept.push([...head, [FIELD.ownClock, clock, 0, 0, 0, 0, 0, first, 1, clock - first, 0, 0], ...own])
      clock += length
    }
  }
  r.heads.push([r.rest.at, update.length - r.rest.at]) // the delete set, of an update that reads strictly
  return { kept, others, heads: r.heads }
}
