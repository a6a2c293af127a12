// Updates that several tests use, as document 01 and docs/FORMAT.md have them.
export const bytes = hex => Uint8Array.from(hex.replace(/\s/g, '').match(/../g) ?? [], pair => parseInt(pair, 16))
export const hex = bytes => Array.from(bytes, byte => byte.toString(16).padStart(2, '0')).join('')

export const C = bytes('010105000401017402686900')
export const D = bytes('0000010500000104060374686901020101000001010000')
/** Docs/FORMAT.md, "A line behind the wrong reading". */
export const MARCH2 = bytes('00 00 03 05 49 03 02 03 01 02 04 02 03 c4 01 84 06 03 78 79 7a 41 01 00 00 00 01 03 00 00')
export const MARCH1 = bytes('01 03 05 00 c4 09 01 09 02 01 78 c4 09 02 09 03 01 79 84 09 03 01 7a 00')
export const BOTH = bytes('02010900040101740161010500840900016200')
export const WITHOUT = bytes('01010500840900016200')
export const BOLD1 = bytes('010105000601017404626f6c64047472756500')
export const BOLD2 = bytes('000100010500000106080574626f6c640104010100000101007800')

/** Form 1: so many blocks of client 5, texts of one unit, each with the one before it at its left. */
export const many = count => {
  const out = [1]
  const number = n => {
    while (n > 127) {
      out.push(128 | n % 128)
      n = Math.floor(n / 128)
    }
    out.push(n)
  }
  number(count)
  out.push(5, 0)
  for (let n = 0; n < count; n++) {
    if (n === 0) out.push(4, 1, 1, 0x74)
    else {
      out.push(0x84, 5)
      number(n - 1)
    }
    out.push(1, 97 + n % 26)
  }
  return Uint8Array.from([...out, 0])
}
