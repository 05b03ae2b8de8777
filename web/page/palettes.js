// Made by scripts/page.py of python/gbkeep/palettes.py: the colours of the four shades, darkest first, as red, green and blue.
export const PALETTES = [
  [[15, 56, 15], [48, 98, 48], [139, 172, 15], [224, 248, 208]], // green
  [[0, 0, 0], [85, 85, 85], [170, 170, 170], [255, 255, 255]], // grey
  [[31, 31, 31], [77, 83, 60], [139, 149, 109], [196, 207, 161]], // pocket
  [[10, 7, 5], [54, 33, 20], [98, 62, 34], [154, 106, 60]], // night
];
