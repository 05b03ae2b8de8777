"""Fails where docs/REFUSALS.md and the sources differ: a public call that returns a Result and has no row or two, a row whose call, clause or test
is not there, and a row whose refusals are not those that the call's contract leaves possible, or not in the order in which its body comes to them.
Then it deletes each row, each refusal, each clause and each test from the table, and turns the order of each row's refusals round, and wants each
of these to be seen.

A contract tells by a definition with an equation for each variant of the error, where ⊥ stands for an impossible one, or by a record whose field
`cause` has such a definition; a clause may exclude a variant more by its name. Where it has none, a row has what the body answers itself, and of a type of one refusal that one. An order is compared as far as the body names the refusals; `whole_lives::live`,
whose causes are stated of the sectors that are left, is compared by its names alone.

usage: refusals.py, at the top of the repository"""
import re
import sys
from pathlib import Path

PROGRAMS = {'bench', 'gbkeep_program', 'refused_memory'}
# a call that answers what another one answers, and else only what its body names
HANDS_ON = {('embedding', f'Game::{name}'): ('session', f'Session::{name}') for name in ('input', 'power', 'restore')}


def is_library(crate):
    return not crate.endswith('_tests') and crate not in PROGRAMS


def sources(crate):
    return {path: path.read_text() for path in sorted((Path('crates') / crate / 'src').rglob('*.rt'))}


def public_calls(text):
    """The calls of a file that anybody may make, as (name, head, contract); that of a method begins with its type."""
    for found in re.finditer(r'^( *)pub (?:const )?fn (\w+)(.*?)(?:^\1\{|(?<!record) \{$)', text, re.S | re.M):
        types = re.findall(r'^impl\b(?:<[^>]*>)? (?:.* for )?(\w+)', text[:found.start()], re.M) if found[1] else []
        yield '::'.join([*types[-1:], found[2]]), *parted(found[3])
    for trait in re.finditer(r'^pub trait (\w+).*?^\}', text, re.S | re.M):
        for found in re.finditer(r'^    fn (\w+)(.*?);$', trait[0], re.S | re.M):
            yield f'{trait[1]}::{found[1]}', *parted(found[2])


def parted(words):
    at = re.search(r'^\s*(?:requires|ensures|ghost|//)', words, re.M)
    return (words[:at.start()], words[at.start():]) if at else (words, '')


# ---- what the sources say of a call's refusals

def parts_of(texts, crate):
    """The error types of a crate: variants by enum, and the enum behind a refusal that hands something back."""
    enums, behind = {}, {}
    for text in texts[crate].values():
        for name, body in re.findall(r'^pub(?:\(crate\))? enum (\w+)[^{]*\{(.*?)^\}', text, re.S | re.M):
            enums[name] = set(re.findall(r'^    ([A-Z]\w+)', body, re.M))
        for name, body in re.findall(r'^pub struct (\w+)[^{]*\{(.*?)^\}', text, re.S | re.M):
            behind.update({name: why for why in re.findall(r'^    pub why: (\w+)', body, re.M)})
    return enums, behind


def definitions_in(text):
    """A file of definitions, in which a variant has its own name throughout."""
    for given in re.findall(r'\.TheVariants\.\{([^}]*)\}', text):
        for own, other in re.findall(r'(\w+) as (\w+)', given):
            text = re.sub(rf'\b{other}\b', own, text)
    return text


def equations_of(definitions):
    """The equations of each definition, as (arguments, value)."""
    found = {}
    for name, given, value in re.findall(r'^(Is\w+) (.*?) =((?:.*\n)(?:    .*\n)*)', definitions, re.M):
        found.setdefault(name, []).append((given, value.strip()))
    return found


def causes_of(definitions):
    """The definition that the field `cause` of each record has, and of what stands for such a record."""
    fields = re.findall(r'^( *)pub record (\w+).*? where\n((?:\1  .*\n)*)', definitions, re.M)
    found = {name: cause for _, name, body in fields for cause in re.findall(r'^ +pub cause : (?:IfErr \w+ \(λ \w+\. )?(Is\w+)', body, re.M)}
    stand_for = dict(re.findall(r'^([A-Z]\w+) [^=\n]* =\s+([A-Z]\w+)', definitions, re.M))
    for name in stand_for:
        other = name
        while other in stand_for:
            other = stand_for[other]
        if other in found:
            found[name] = found[other]
    return found


def possible(name, equations, variants):
    """Which variants a definition leaves possible; None where it has no equation for them."""
    left, can, is_by_variant = set(variants), set(), False
    for given, value in equations.get(name, []):
        here = left & set(re.findall(r'\b[A-Z]\w+', given))
        others = [other for other in re.findall(r'\bIs\w+', value) if possible(other, equations, variants) is not None] if not here else []
        is_by_variant |= bool(here or others)
        if here:
            can |= here if value != '⊥' else set()
            left -= here
        elif value == '⊥':
            left = set()
        else:
            can |= left & possible(others[0], equations, variants) if others else left
            left = set()
    return can | left if is_by_variant else None


def bodies_of(texts):
    """The bodies of a crate's functions by name, but for those that translate an error."""
    return {name: body for text in texts.values() for _, name, head, body in
            re.findall(r'^( *)(?:pub(?:\(crate\))? )?(?:const )?fn (\w+)(.*?)(?:^\1\{|(?<!record) \{)\n(.*?)^\1\}', text, re.S | re.M)
            if not re.search(r'\(\w+: \w*(?:Fault|Error)\b', head)}


def answered(bodies, name, around=()):
    """The refusals that a body names, and those that it calls in its crate, as they come."""
    order = []
    for one, plain, call in re.findall(r'\b(?:\w+(?:Error|Fault)|Refusal)::([A-Z]\w+)|\b(OutputFailed|AllocError)\b|(?<!::)\b(\w+)(?:::<[^>]*>)?\(', bodies.get(name, '')):
        more = [one or plain] if one or plain else answered(bodies, call, (*around, name)) if call in bodies and call not in (*around, name) else []
        order += [each for each in more if each not in order]
    return order


def calls_of(bodies, name, around=()):
    """The functions that a body calls, and those that these call in its crate."""
    calls = set(re.findall(r'\b(\w+)(?:::<[^>]*>)?\(', bodies.get(name, '')))
    return calls.union(*(calls_of(bodies, call, (*around, name)) for call in calls & set(bodies) - {*around, name}))


class Call:
    """What the sources say of a call: the clauses of its contract, the variants of its error, those that are possible (None: it is not
    told), those that the body names, as they come, and the calls that it makes."""

    def __init__(self, name, head, contract, enums, behind, equations, causes, bodies):
        answer = head.rpartition('->')[2].strip()
        handed = re.search(r'\bRefused<(\w+), \w+>', answer)
        error = (handed or re.search(r'(\w+)(?:<[\w, ]+>)?>\s*(?:where.*)?$', answer, re.S))[1]
        # the fault of what a type parameter stands for has no variants here
        of_a_parameter = re.search(r'\b(?:Self|[A-Z])::Fault>', head.rpartition('->')[2])
        error = behind.get(error, error)
        self.clauses = set(re.findall(r'ensures (\w+) \{', contract)) or {'the only one'}
        self.variants = {'Fault'} if of_a_parameter else enums.get(error, {error})
        # what stands before an arrow is asked, and not told
        told = re.sub(r'\bIs\w+ [\w.]+ →', '→', contract)
        used = re.findall(r'\bIs\w+', told) + [causes[name] for name in re.findall(r'\b[A-Z]\w+', told) if name in causes]
        cans = [can for one in used for can in [possible(one, equations, self.variants)] if can is not None]
        self.can = set.intersection(*cans) if cans else self.variants if len(self.variants) == 1 else None
        # what a clause excludes by its name
        excluded = {name for _, name in re.findall(r'\{ IfErr result \(λ (\w+)\. \1(?:\.why)? ≢ (?:\w+\.)?([A-Z]\w+)\) \}', contract)}
        self.can = self.can and self.can - excluded
        # the only one that a clause leaves
        alone = re.findall(r'\{ IfErr result \(λ (\w+)\. \1 ≡ (?:\w+\.)?([A-Z]\w+)\) \}', contract)
        self.can = {name for _, name in alone} if self.can is None and alone else self.can
        own = name.rpartition('::')[2]
        self.order = [one for one in answered(bodies, own) if one in (self.can or self.variants)]
        self.calls = calls_of(bodies, own)
        self.stops_without_memory = 'HasFoundNoMemory' in contract


class Sources:
    def __init__(self):
        self.crates = sorted(path.name for path in Path('crates').iterdir() if (path / 'src').is_dir())
        self.texts = {crate: sources(crate) for crate in self.crates}
        self.tests = {f'{path.stem}::{name}' for crate in self.crates if crate.endswith('_tests') for path, text in self.texts[crate].items()
                      for name in re.findall(r'#\[test\]\nfn (\w+)', text)}
        self.tests |= {f'{crate}::{name}' for crate in self.crates for path, text in self.texts[crate].items() if path.stem == 'tests'
                       for name in re.findall(r'#\[test\]\nfn (\w+)', text)}
        self.tests |= {f'program::{name}' for path in Path('scripts/program_tests').glob('test_*.py') for name in re.findall(r'^def test_(\w+)', path.read_text(), re.M)}
        self.tests |= {f'library::{name}' for name in re.findall(r'^    def test_(\w+)', Path('library/test_library.py').read_text(), re.M)}
        parts = [parts_of(self.texts, crate) for crate in self.crates]
        enums = {name: variants for one, _ in parts for name, variants in one.items()}
        specs = {crate: ''.join(definitions_in(path.read_text()) for path in sorted((Path('crates') / crate / 'specs').glob('*.antt'))) for crate in self.crates}
        equations = {crate: equations_of(text) for crate, text in specs.items()}
        causes = {crate: causes_of(text) for crate, text in specs.items()}
        self.stops = possible('IsStop', equations['playing'], enums['SessionError'])
        self.calls, self.others = {}, 0
        for crate, (_, own) in zip(self.crates, parts):
            # what hands something back may be another crate's
            used = {name: other for text in self.texts[crate].values() for other, names in re.findall(r'^use (\w+)::\{?([^;]*);', text, re.M)
                    for name in re.findall(r'\w+', names)}
            behind = {**{name: why for other, (_, there) in zip(self.crates, parts) for name, why in there.items() if used.get(name) == other}, **own}
            bodies = bodies_of(self.texts[crate])
            # two crates may have definitions of one name: a crate's own goes first
            here = {name: found for others in (*equations.values(), equations[crate]) for name, found in others.items()}
            why = {name: found for others in (*causes.values(), causes[crate]) for name, found in others.items()}
            for text in self.texts[crate].values() if is_library(crate) else []:
                for name, head, contract in public_calls(text):
                    if 'Result<' in head.rpartition('->')[2]:
                        self.calls[crate, name] = Call(name, head, contract, enums, behind, here, why, bodies)
                    else:
                        self.others += 1


# ---- the comparison

# the variants that hold the refusals of a call below, which a row writes as 'those of' that call
HOLDS_OTHERS = {'Recording', 'Save', 'Session', 'Stream', 'Debug'}
# the call whose refusals a variant holds beside those of another variant
HELD_BY = {'obey': 'Debug'}


def named(refusals):
    """The refusals that a row names itself, each once, as they come."""
    return list(dict.fromkeys(re.findall(r'`([A-Z]\w+)`', refusals)))


def wanted_of(key, known):
    """Which refusals a row has to name itself: those that are possible, or that the body names, but for those of the call that it points to."""
    call = known.calls[HANDS_ON.get(key, key)]
    if key == ('whole_lives', 'live') or call.can is None and not call.order and not call.variants & HOLDS_OTHERS:
        return None
    wanted = (call.can if call.can is not None else set(call.order) or call.variants) - HOLDS_OTHERS
    if key in HANDS_ON:
        wanted = wanted | set(known.calls[key].order)
    # a play and a stream make moves on a session, which stop for reasons of their own
    if key[1] in ('play', 'stream') and 'make_move' in call.calls:
        wanted = wanted | known.stops
    return wanted | {'Memory'} if call.stops_without_memory else wanted


def differences(table, known):
    rows = re.findall(r'^\| `(\w+)::(\S+)` \| (.*) \| (.*) \| (.*) \|$', table, re.M)
    wrong, seen = [], []
    for crate, full, refusals, clauses, shown in rows:
        key, at = (crate, full), f'{crate}::{full}'
        seen.append((crate, full))
        if key not in known.calls:
            wrong.append(f'{at} is no public call that returns a Result')
            continue
        call, said, wanted = known.calls[key], named(refusals), wanted_of(key, known)
        if call.variants == {'Machine'}:
            wanted = set()
        if wanted is not None:
            wrong += [f'{at}: {one} is missing' for one in sorted(wanted - set(said))] + [f'{at}: {one} is ruled out' for one in sorted(set(said) - wanted)]
        else:
            wrong += [f'{at}: no refusal {one}' for one in said if one not in call.variants] + ([] if said else [f'{at}: no refusal'])
        pointed = re.findall(r'those of `(\w+)`', refusals)
        wrong += [f'{at}: it calls no {one}' for one in pointed if one not in call.calls]
        if ((call.can or call.variants) & HOLDS_OTHERS or 'resume' in call.calls) and not pointed:
            wrong.append(f'{at}: it points to no call')
        # the variant that holds others comes where the row points to them
        holds = sorted((call.can or call.variants) & HOLDS_OTHERS - set(HELD_BY.values()) or {''})
        come = [one or HELD_BY.get(pointed_to, holds[0]) for one, pointed_to in re.findall(r'`([A-Z]\w+)`|those of `(\w+)`', refusals)]
        come = [one for one in dict.fromkeys(come) if one in call.order]
        if key != ('whole_lives', 'live') and come != [one for one in call.order if one in come]:
            wrong.append(f'{at}: the body comes to {", ".join(one for one in call.order if one in come)}, in this order')
        told = set(re.findall(r'`(\w+)`', clauses)) or {clauses}
        if clauses != 'of the trait':
            wrong += [f'{at}: its contract has no clause {one}' for one in sorted(told - call.clauses)]
        found = re.findall(r'`([\w:]+)`', shown)
        wrong += [f'{at}: no test {one}' for one in found if one not in known.tests] + ([] if found else [f'{at}: no test'])
    wrong += [f'{crate}::{name} returns a Result and has no row' for crate, name in sorted(set(known.calls) - set(seen))]
    return wrong + [f'{crate}::{full} has {seen.count((crate, full))} rows' for crate, full in sorted(set(seen)) if seen.count((crate, full)) > 1]


def spoilt(table, known):
    """The table with one thing gone, altered or turned round, each time, and what that is."""
    for crate, full, rest in re.findall(r'^\| `(\w+)::(\S+)` (\| .* \|)$', table, re.M):
        line, call = f'| `{crate}::{full}` {rest}', known.calls[crate, full]
        yield f'{full} is gone', table.replace(line + '\n', '', 1)
        yield f'{full} is there twice', table.replace(line, f'{line}\n{line}', 1)
        for column, cell in enumerate(rest.strip('| ').split(' | ')):
            names = [name for name in re.findall(r'`([\w:]+)`', cell) if name != 'clap']
            for at, name in enumerate(names):
                if names.count(name) > 1:
                    continue
                yield f'{full} has {name}x', table.replace(line, line.replace(cell, cell.replace(f'`{name}`', f'`{name}x`')), 1)
                # of several clauses or tests the others are still in the sources, and so are of several calls that a row points to
                pointed = re.findall(r'those of `(\w+)`', cell)
                if (column == 0 and not (name in pointed and len(pointed) > 1) or len(names) == 1) and full != 'live':
                    yield f'{full} lacks {name}', table.replace(line, line.replace(cell, re.sub(r'(those of )?`%s`' % name, '', cell, count=1), 1), 1)
                if column == 0 and at > 0 and {name, names[at - 1]} <= set(call.order) and full != 'live':
                    turned = cell.replace(f'`{name}`', '``').replace(f'`{names[at - 1]}`', f'`{name}`').replace('``', f'`{names[at - 1]}`')
                    yield f'{full} has {name} before {names[at - 1]}', table.replace(line, line.replace(cell, turned, 1), 1)


def main():
    known, table = Sources(), Path('docs/REFUSALS.md').read_text()
    wrong, seen, unseen = differences(table, known), 0, []
    for what, other in spoilt(table, known) if not wrong else []:
        if differences(other, known):
            seen += 1
        else:
            unseen.append(f'nobody sees that {what}')
    print('\n'.join(wrong + unseen) or f'refusals: {len(known.calls)} calls that refuse, {known.others} that always succeed, {seen} changes of the table seen')
    return 1 if wrong or unseen else 0


if __name__ == '__main__':
    sys.exit(main())
