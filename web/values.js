// Any-values as JSON, and texts quoted, as the command ./wairokabi shows them. The bytes are a part of an update that the library has read, so that they hold whole
// values. What JSON does not have is written as JavaScript writes it: undefined, NaN, 5n; bytes as hex:..
'use strict'

const values = (() => {
  const decoder = new TextDecoder('utf-8', { ignoreBOM: true })
  const decode = bytes => decoder.decode(bytes)
  const hexOf = bytes => Array.from(bytes, byte => byte.toString(16).padStart(2, '0')).join('')

  /** A text as a JSON string, on one line. */
  const quoted = text => JSON.stringify(text).replace(/[\u007f-\u009f\u2028\u2029]/g, c => `\\u${c.charCodeAt(0).toString(16).padStart(4, '0')}`)

  /** The first `most` characters, and a mark where there are more. */
  const cut = (text, most) => text.length > most ? `${text.slice(0, most)}…` : text

  class Rest {
    constructor(bytes, most) {
      this.bytes = bytes
      this.at = 0
      this.left = most // characters, roughly: no more values are looked at once they are used up
    }

    take(count) {
      if (this.at + count > this.bytes.length) throw new RangeError('the bytes end')
      this.at += count
      return this.bytes.subarray(this.at - count, this.at)
    }

    /** A number of at most nine bytes, `low` bits in the first. */
    number(low) {
      let [byte] = this.take(1)
      let value = BigInt(byte) & ((1n << BigInt(low)) - 1n)
      for (let shift = low; byte > 127; shift += 7) {
        [byte] = this.take(1)
        value |= BigInt(byte & 127) << BigInt(shift)
      }
      return value
    }

    sized() {
      return this.take(Number(this.number(7)))
    }

    text() {
      return quoted(decode(this.sized()))
    }

    view(count) {
      const bytes = this.take(count)
      return new DataView(bytes.buffer, bytes.byteOffset, count)
    }

    list(entry) {
      const count = this.number(7)
      const entries = []
      for (let n = 0n; n < count; n++) {
        if (this.left < 0) return [...entries, '…'].join(',')
        entries.push(entry())
        this.left -= entries.at(-1).length
      }
      return entries.join(',')
    }

    value() {
      const [tag] = this.take(1)
      const float = value => Object.is(value, -0) ? '-0' : String(value)
      switch (tag) {
        case 127: return 'undefined'
        case 126: return 'null'
        case 125: {
          const minus = (this.bytes[this.at] & 64) !== 0
          return `${minus ? '-' : ''}${this.number(6)}`
        }
        case 124: return float(this.view(4).getFloat32(0))
        case 123: return float(this.view(8).getFloat64(0))
        case 122: return `${this.view(8).getBigInt64(0)}n`
        case 121: return 'false'
        case 120: return 'true'
        case 119: return this.text()
        case 118: return `{${this.list(() => `${this.text()}:${this.value()}`)}}`
        case 117: return `[${this.list(() => this.value())}]`
        case 116: return `hex:${hexOf(this.sized())}`
        default: throw new RangeError('no tag')
      }
    }
  }

  /** So many values, with commas between them, of about so many characters. */
  const all = (bytes, count, most) => {
    const rest = new Rest(bytes, most)
    const found = []
    for (let n = 0; n < count; n++) {
      if (rest.left < 0) return [...found, '…'].join(',')
      found.push(rest.value())
      rest.left -= found.at(-1).length
    }
    return found.join(',')
  }

  const of = (update, part, most = Infinity) => update.subarray(part.place, part.place + Math.min(part.bytes, most))

  /** A part as a quoted text. Four bytes a character are enough to cut from. */
  const text = (update, part, most) => {
    const short = decode(of(update, part, 4 * most + 4))
    return short.length > most ? `${quoted(short.slice(0, most)).slice(0, -1)}…"` : quoted(short)
  }

  /** What a block holds: a text quoted, a binary in hex, a mark as "bold" = true, a type as xml element "p", the values of an any-list as JSON. */
  const held = (form, update, block, types, most) => {
    const mark = block.mark === null ? '' : text(update, block.mark, most)
    switch (block.kind) {
      case 'text': return text(update, block.part, most)
      case 'binary': return `hex:${hexOf(of(update, block.part, most / 2))}${block.part.bytes > most / 2 ? '…' : ''}`
      case 'format': {
        // form 1 has JSON text, as it is, on one line
        const value = form === 1 ? cut(quoted(decode(of(update, block.part, 4 * most))).slice(1, -1).replace(/\\(["\\])/g, '$1'), most) : all(of(update, block.part), 1, most)
        return `${mark} = ${cut(value, most)}`
      }
      case 'type': return [types[block.type], mark].filter(word => word !== '').join(' ')
      case 'any': return cut(`[${all(of(update, block.part), block.length, most)}]`, most + 2)
      default: return ''
    }
  }

  return { held, text, hexOf, all, quoted }
})()
