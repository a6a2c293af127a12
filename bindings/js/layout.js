// Where the header's structs have their fields, and what its calls take: read off its declarations (header.js), by the rules of C on a machine of 64 bits. This
// is the one place that knows of layouts. A struct inside a struct is gone into: `left.client` and `left_client` are both the field `left_client`.
import { HEADER } from './header.js'

const SIZES = { uint8_t: 1, bool: 1, uint16_t: 2, uint32_t: 4, uint64_t: 8, size_t: 8 }
const upTo = (at, align) => Math.ceil(at / align) * align
const short = name => name.replace(/^wairokabi_/, '')

/** The header's constants, by their names without `WAIROKABI_`. */
export const constants = (header = HEADER) =>
  Object.fromEntries([...header.matchAll(/^#define WAIROKABI_(\w+) (\d+)$/gm)].map(([, name, value]) => [name, Number(value)]))

/** Each struct by its name without `wairokabi_`: its size, its alignment and its fields, each with its place and its type. */
export const structs = (header = HEADER) => {
  const known = new Map(Object.entries(SIZES).map(([type, size]) => [type, { size, align: size, fields: null }]))
  for (const [, name, body] of header.matchAll(/typedef struct (\w+) \{([^}]*)\}/g)) {
    const fields = new Map()
    let size = 0
    let align = 1
    for (const [, type, field] of body.matchAll(/(\w+) (\w+);/g)) {
      const of = known.get(type)
      if (of === undefined) throw new Error(`${name}: ${type} is not declared before it`)
      size = upTo(size, of.align)
      if (of.fields === null) fields.set(field, { at: size, type })
      // a struct of one field `count` is that number, under the name that it has here
      else for (const [inner, { at, type }] of of.fields) fields.set(inner === 'count' ? field : `${field}_${inner}`, { at: size + at, type })
      size += of.size
      align = Math.max(align, of.align)
    }
    known.set(name, { size: upTo(size, align), align, fields })
  }
  return Object.fromEntries([...known].filter(([, of]) => of.fields !== null).map(([name, of]) => [short(name), of]))
}

/** Each call by its name without `wairokabi_`: what it answers, and its parameters; a pointer and the count behind it are one. */
export const calls = (header = HEADER) => {
  const found = {}
  for (const [, answer, name, list] of header.matchAll(/^(\w+) (\w+)\(([^)]*)\);/gm)) {
    const parameters = []
    for (const [, constant, type, pointer, parameter] of list.matchAll(/(const )?(\w+) (\*?)(\w+)/g)) {
      if (pointer === '' && parameter === `${parameters.at(-1)?.name}_count`) continue
      parameters.push({ name: parameter, type: short(type), lent: pointer === '*', written: pointer === '*' && constant === undefined })
    }
    found[short(name)] = { answer: short(answer), parameters }
  }
  return found
}

/** How many bytes an element of this type takes. */
export const sizeOf = (type, all) => SIZES[type] ?? all[type].size
