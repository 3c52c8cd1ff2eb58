"""Routines of 64 bits and of bit counts, in the firmware language; each file that needs one gets its own, so that no call leaves the file."""
from __future__ import annotations

HIGH_PRODUCT = '''func {name}(a: u32, b: u32) -> u32 {{
  reg m: u32 reg s: u32 reg al: u32 reg ah: u32 reg bl: u32 reg bh: u32 reg x: u32 reg lh: u32 reg hl: u32
start:
  m = 65535 s = 16
  al = and a, m ah = shr a, s bl = and b, m bh = shr b, s
  x = mul al, bl x = shr x, s
  lh = mul al, bh hl = mul ah, bl
  al = and lh, m x = add x, al
  bl = and hl, m x = add x, bl
  x = shr x, s lh = shr lh, s hl = shr hl, s
  x = add x, lh x = add x, hl
  ah = mul ah, bh x = add x, ah
  ret x
}}'''

# Bit by bit: the remainder is shifted up by one bit of the numerator, and the denominator is taken off where it fits. Where the
# bit that leaves the remainder is 1 it fits in any case.
DIVISION = '''func {name}(nl: u32, nh: u32, dl: u32, a: *{rest}) -> u32 {{
  reg q0: *u32 reg q1: **u32 reg ph: *u32 reg dh: u32 reg rl: u32 reg rh: u32 reg i: u32 reg t: u32 reg c: u32
  reg one: u32 reg k31: u32 reg zero: u32 reg sn: u32 reg sd: u32
start:
  q0 = field a, w0 dh = load q0 q1 = field a, w1 ph = load q1
  one = 1 k31 = 31 i = 64
{signs}  jump loop
loop:
  branch i step done
step:
  i = sub i, one
  c = shr rh, k31
  rh = shl rh, one t = shr rl, k31 rh = or rh, t
  rl = shl rl, one t = shr nh, k31 rl = or rl, t
  nh = shl nh, one t = shr nl, k31 nh = or nh, t
  nl = shl nl, one
  t = ult dh, rh c = or c, t
  branch c take eqhi
eqhi:
  t = eq dh, rh
  branch t low loop
low:
  t = ule dl, rl
  branch t take loop
take:
  t = ult rl, dl
  rl = sub rl, dl rh = sub rh, dh rh = sub rh, t
  nl = or nl, one
  jump loop
done:
{back}  store ph, {high}
  ret {low}
}}'''

# Counts bits from one end until none is left (popcount, clz), or until one is found (ctz, ffs).
COUNT = '''func {name}(a: u32) -> u32 {{
  reg r: u32 reg one: u32{more}
start:
  one = 1{first}
  jump loop
loop:
  branch a step done
step:
  {step}
  jump loop
done:
  ret r
}}'''
FIRST = '''func {name}(a: u32) -> u32 {{
  reg r: u32 reg one: u32 reg t: u32
start:
  one = 1
  branch a loop none
loop:
  t = and a, one
  branch t done step
step:
  a = shr a, one r = add r, one
  jump loop
none:
  r = {none}
  ret r
done:
{last}  ret r
}}'''


def negated(low: str, high: str) -> str:
    """Instructions that negate 64 bits."""
    return f'{low} = sub zero, {low} t = ne {low}, zero {high} = sub zero, {high} {high} = sub {high}, t'


def division(name: str, rest: str, signed: bool, remainder: bool) -> str:
    """Quotient or remainder of 64 bits; the struct `rest` has the denominator's high word, and where the result's high word goes."""
    low, high = ('rl', 'rh') if remainder else ('nl', 'nh')
    signs = back = ''
    if signed:
        signs = f'''  sn = sar nh, k31 sd = sar dh, k31
  branch sn n1 n2
n1:
  {negated('nl', 'nh')}
  jump n2
n2:
  branch sd n3 n4
n3:
  {negated('dl', 'dh')}
  jump n4
n4:
'''
        back = ('  t = sn\n' if remainder else '  t = xor sn, sd\n') + f'''  branch t n5 n6
n5:
  {negated(low, high)}
  jump n6
n6:
'''
    return DIVISION.format(name=name, rest=rest, signs=signs, back=back, low=low, high=high)


def routine_text(kind: str, name: str, rest: str) -> str:
    """The text of a routine."""
    if kind == 'mulhi':
        return HIGH_PRODUCT.format(name=name)
    if kind == 'popcount':
        return COUNT.format(name=name, more=' reg t: u32', first='', step='t = sub a, one a = and a, t r = add r, one')
    if kind == 'clz':
        return COUNT.format(name=name, more='', first=' r = 32', step='a = shr a, one r = sub r, one')
    if kind == 'ctz':
        return FIRST.format(name=name, none=32, last='')
    if kind == 'ffs':
        return FIRST.format(name=name, none=0, last='  r = add r, one\n')
    return division(name, rest, kind[0] == 's', 'rem' in kind)
