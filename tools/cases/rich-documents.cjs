// Edits as analysts make them: coloured text, maps and arrays of plain values, XML, types inside types. `edit` is one for documents.cjs, whose client ids,
// sendings and merges stay; what is edited comes from our random numbers.
'use strict'
const { Y } = require('./yjs.cjs')
const { many } = require('./random.cjs')

const words = ['a', 'remark', ' ', 'é', 'ß€', '日本', '😀', 'a😀b', 'x'.repeat(30), 'naïve café']
const marks = ['bold', 'italic', 'color', 'link', '鍵', '😀', '']
const keys = ['k', 'unit', 'value 2', 'ä', '😀', '']
const nodes = ['p', 'h1', 'span', 'tabelle-ä', '😀', '']

const begin = ({ random, pick }) => {
  // ---- values: those that JSON has, and those that only any-values have

  const numbers = [0, 1, -1, 63, 64, -64, 8191, 8192, 2 ** 31 - 1, -(2 ** 31 - 1), 2 ** 31, 2 ** 32, 2 ** 53 - 1, -(2 ** 53 - 1), 0.5, -0.25, 1e300, 3.14159, 0.1]
  const plain = () => pick([() => pick(words), () => pick(numbers), () => random(2) === 0, () => null, () => random(1000) - 500])()
  const json = deep => {
    if (deep === 0 || random(3) > 0) return plain()
    if (random(2) === 0) return many(random(4), () => json(deep - 1))
    return Object.fromEntries(many(random(4), () => [pick(keys), json(deep - 1)]))
  }
  const odd = () => pick([() => undefined, () => NaN, () => Infinity, () => -0, () => [BigInt(pick(numbers.filter(Number.isSafeInteger)))], () => [-(2n ** 63n), 2n ** 63n - 1n],
    () => [undefined, null, Uint8Array.from(many(random(6), () => random(256)))], () => ({ held: Uint8Array.of(1, 255), '': undefined })])()
  // So many arrays and objects, each in the one before.
  const nested = deep => deep === 0 ? plain() : random(2) === 0 ? many(1 + random(2), k => k === 0 ? nested(deep - 1) : plain()) : { [pick(keys)]: nested(deep - 1) }
  const value = () => pick([plain, plain, plain, () => json(3), odd, () => nested(random(17))])()
  // An array of Yjs takes no undefined by itself.
  const entry = () => value() ?? null

  // ---- text

  const attributes = () => Object.fromEntries(many(1 + random(2), () => [pick(marks), pick([true, null, false, '#ff0000', 'a"\\é', 7, 0.5, json(2)])]))
  const span = text => {
    const at = random(text.length)
    return [at, 1 + random(Math.min(text.length - at, 8))]
  }
  const inText = text => {
    if (text.length === 0) return text.insert(0, pick(words))
    switch (random(7)) {
      case 0: return text.delete(...span(text))
      case 1: case 2: return text.format(...span(text), attributes())
      case 3: case 4: return text.insert(random(text.length + 1), pick(words), attributes())
      case 5: return text.applyDelta([{ retain: random(text.length) + 1, attributes: attributes() }, { insert: pick(words), attributes: random(2) === 0 ? attributes() : undefined }])
      default: return text.insert(random(text.length + 1), pick(words))
    }
  }

  // ---- types inside types

  const binary = () => Uint8Array.from(many(pick([0, 1, 5]), () => random(256)))
  const type = deep => {
    const inside = () => deep === 0 ? plain() : pick([entry, entry, () => type(deep - 1)])()
    return pick([
      () => Y.Array.from(many(random(4), inside)),
      () => new Y.Map(many(random(3), k => [`${k}`, inside()])),
      () => new Y.Text(pick(words)),
      () => new Y.XmlText(pick(words)),
      () => element(deep),
      () => new Y.XmlFragment(),
      () => new Y.XmlHook(pick(nodes))
    ])()
  }
  const element = deep => {
    const made = new Y.XmlElement(pick(nodes))
    if (random(2) === 0) made.setAttribute(pick(keys), pick(words))
    if (deep > 0) made.insert(0, many(random(3), () => pick([() => element(deep - 1), () => new Y.XmlText(pick(words)), () => new Y.XmlHook(pick(nodes))])()))
    return made
  }

  // ---- one edit, in the document or in a type somewhere in it

  const inList = (list, insert) => {
    if (list.length > 0 && random(4) === 0) list.delete(...span(list))
    else insert(random(list.length + 1))
  }
  const inArray = array => inList(array, at => array.insert(at, many(1 + random(5), () => pick([entry, entry, entry, entry, binary, () => type(1)])())))
  const inMap = map => {
    const key = pick(keys)
    if (random(5) === 0) map.delete(key)
    else map.set(key, pick([value, value, value, binary, () => type(2)])())
  }
  const inXml = xml => inList(xml, at => xml.insert(at, [pick([() => element(2), () => new Y.XmlText(pick(words)), () => new Y.XmlHook(pick(nodes))])()]))
  const inElement = xml => random(3) > 0 ? inXml(xml) : random(3) === 0 ? xml.removeAttribute(pick(keys)) : xml.setAttribute(pick(keys), pick(words))
  const within = held => {
    if (held instanceof Y.Text) return inText(held) // XML text too
    if (held instanceof Y.XmlElement) return inElement(held)
    if (held instanceof Y.XmlFragment) return inXml(held)
    if (held instanceof Y.Array) return inArray(held)
    return inMap(held)
  }
  const children = held => held instanceof Y.Text ? [] : held instanceof Y.Map ? [...held.values()] : held.toArray()
  const typesIn = held => children(held).filter(x => x instanceof Y.AbstractType)
  const edit = doc => {
    let held = pick([() => doc.getText('t'), () => doc.getText('t'), () => doc.getText('ä😀'), () => doc.get('xml text', Y.XmlText), () => doc.getArray('list'), () => doc.getMap('map'),
      () => doc.getMap('map'), () => doc.getXmlFragment('xml')])()
    while (random(2) === 0 && typesIn(held).length > 0) held = pick(typesIn(held))
    within(held)
  }

  return { edit, value, json, words, marks, nodes }
}

module.exports = { begin }
