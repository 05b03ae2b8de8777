// Made by scripts/page.py: the SHA-256 of the module, and whether it was made from the sources that lie beside this page.
export const MODULE = {"digest": "2fe163ebf14a62dd0a09d74db4a40546a42e1d4622f356e76e7b320e3bc6ccec", "isOfSources": true};
