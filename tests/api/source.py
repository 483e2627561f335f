"""Source files, Rust with contracts, read as the items that they declare, without contracts and bodies."""
import collections
import re

# Comments and attributes but derives are gaps; a derive, and a restricted `pub`, is one token.
TOKEN = re.compile(r"""
    (?P<gap> (?: \s+ | //[^\n]* | /\*.*?\*/ | \#!?\[(?!derive)[^\]]*\] )+ )
  | \#\[derive\([^)]*\)\] | pub\([a-z]+\)
  | b?"(?: \\. | [^"\\] )*" | b?r(?P<hashes>\#*)".*?"(?P=hashes) | b?'(?: \\.[^']* | [^\\'] )'
  | '?[^\W\d]\w* | \d\w* | -> | => | :: | .
""", re.S | re.X)
NAME = re.compile(r"[^\W\d]")
CLOSING = {"(": ")", "[": "]", "{": "}"}
CLAUSES = {"requires", "ensures"}
QUALIFIERS = {"const", "unsafe", "extern", '"C"'}

# `gap` is what is before it: nothing, a space, or the end of a line.
Token = collections.namedtuple("Token", "text gap")


class Item:
    """An item: its text, and of a type or a trait its derives and its members, items too; of an alias the tokens of
    `target`; of a use its `path`; of an impl the tokens of its `parameters`, its `trait`, if any, and its `type`; of a
    module its `tokens`, unless they are in a file of its own."""

    text, derives, members = "", (), ()

    def __init__(self, kind, name, is_public=False, **more):
        self.kind, self.name, self.is_public = kind, name, is_public
        self.__dict__.update(more)


def tokens_of(text):
    tokens, gap = [], ""
    for it in TOKEN.finditer(text):
        if it["gap"]:
            gap = "\n" if "\n" in it[0] else " "
        else:
            tokens.append(Token(it[0], gap))
            gap = ""
    return tokens


def group_end(tokens, start):
    """Where the group ends that opens at `start`."""
    depth = 0
    for at in range(start, len(tokens)):
        depth += (tokens[at].text in CLOSING) - (tokens[at].text in CLOSING.values())
        if depth == 0:
            return at + 1
    raise ValueError(f"a group without an end: {shown(tokens[start:start + 20])}")


def upto(tokens, start, *marks):
    """The first of the marks from `start` on that is in no group and in no list of arguments, or the end."""
    angles, at = 0, start
    while at < len(tokens) and (angles or tokens[at].text not in marks):
        angles += (tokens[at].text == "<") - (tokens[at].text == ">")
        at = group_end(tokens, at) if tokens[at].text in CLOSING else at + 1
    return at


def parts(tokens, mark=","):
    """What is between the marks, in no group and in no list of arguments."""
    found, start = [], 0
    while start < len(tokens):
        end = upto(tokens, start, mark)
        found.append(tokens[start:end])
        start = end + 1
    return found


def shown(tokens):
    """The tokens in one line, each path by its last name, as a caller sees them: without `mut` of a name."""
    out = []
    for text, gap in tokens:
        if gap == "\n" and text in {*CLOSING.values(), ">"} and out[-1:] == [","]:
            out.pop()
        if out and gap and not (gap == "\n" and (out[-1] in "([<" or text in ")]>")):
            out.append(" ")
        out.append(text)
    line = re.sub(r"(?:\b[a-z_]\w*::)+(?=[^\W\d])", "", "".join(out)).rstrip(",")
    return re.sub(r"(?<=[(,])( ?)mut (?=\w)", r"\1", line)


def paths(tokens):
    """The paths among the tokens, each a list of names."""
    found, before, last = [], "", ""
    for text, _ in tokens:
        if NAME.match(text):
            if last == "::" and NAME.match(before):
                found[-1].append(text)
            else:
                found.append([text])
        before, last = last, text
    return found


def uses(tokens, is_public, before=()):
    """What a `use` names: in a module the last name of `path`, or all that it has where the name is `*`."""
    for part in parts(tokens):
        path = [*before, *(paths(part[:upto(part, 0, "{", "*", "as")]) or [[]])[0]]
        last = part[-1].text
        if last == "}":
            yield from uses(part[upto(part, 0, "{") + 1:-1], is_public, path)
        elif last == "self":
            yield Item("use", path[-2], is_public, path=path[:-1])
        else:
            yield Item("use", last, is_public, path=path)


def fields(tokens):
    """The public fields within a group, and the public ghost ones by their names."""
    for number, field in enumerate(parts(tokens)):
        if field[0].text == "pub" and field[1].text == "ghost":
            yield Item("ghost", field[2].text)
        elif field[0].text == "pub":
            name = str(number) if upto(field, 0, ":") == len(field) else field[1].text
            yield Item("field", name, text=shown(field))


def variants(tokens):
    return (Item("variant", variant[0].text, text=shown(variant)) for variant in parts(tokens))


def items(tokens):
    """The items that the tokens declare."""
    at = 0
    while at < len(tokens):
        derives = []
        while tokens[at].text.startswith("#[derive"):
            derives += re.findall(r"\w+", tokens[at].text)[1:]
            at += 1
        word = at + tokens[at].text.startswith("pub")
        while tokens[word].text in QUALIFIERS and tokens[word + 1].text in {"fn", *QUALIFIERS}:
            word += 1
        found, at = READERS[tokens[word].text](tokens, at, word)
        for it in found:
            it.derives = derives
            yield it


def function(tokens, start, word):
    end = upto(tokens, word, "{", ";", *CLAUSES)
    text = shown(tokens[start:end])
    while tokens[end].text in CLAUSES:
        end = group_end(tokens, upto(tokens, end, "{"))
    has_body = tokens[end].text == "{"
    item = Item("fn", tokens[word + 1].text, tokens[start].text == "pub", text=text, has_body=has_body)
    return [item], group_end(tokens, end) if has_body else end + 1


def declared(tokens, start, word):
    """A struct, an enum or a trait."""
    kind = tokens[word].text
    opening = upto(tokens, word, "{", "(", ";")
    end = opening if tokens[opening].text == ";" else group_end(tokens, opening)
    members = list({"struct": fields, "enum": variants, "trait": items}[kind](tokens[opening + 1:end - 1]))
    if tokens[opening].text != "{":
        end = upto(tokens, end, ";") + 1
    text = shown(tokens[start:opening])
    return [Item(kind, tokens[word + 1].text, tokens[start].text == "pub", text=text, members=members)], end


def valued(tokens, start, word):
    """A constant or an alias. In the value of a constant `<` opens nothing."""
    end = equals = upto(tokens, word, "=", ";")
    while tokens[end].text != ";":
        end = group_end(tokens, end) if tokens[end].text in CLOSING else end + 1
    text, target = shown(tokens[start:end]), tokens[equals + 1:end]
    item = Item(tokens[word].text, tokens[word + 1].text, tokens[start].text == "pub", text=text, target=target)
    return [item], end + 1


def ghost(tokens, _, word):
    """A ghost member of a trait, by its name alone, or what contracts use."""
    name = tokens[word + 1].text
    return [] if name == "use" else [Item("ghost", name)], upto(tokens, word, ";") + 1


def impl(tokens, _, word):
    opening = upto(tokens, word, "{")
    end = group_end(tokens, opening)
    header = tokens[word + 1:opening]
    has_parameters = header[0].text == "<"
    parameters = parts(header[1:], ">")[0] if has_parameters else []
    named = header[len(parameters) + 2 * has_parameters:]
    sides = [parts(side, "where")[0] for side in parts(named, "for")]
    trait = sides[0] if sides[1:] else []
    members = list(items(tokens[opening + 1:end - 1]))
    text = shown(tokens[word:opening])
    return [Item("impl", "", text=text, parameters=parameters, trait=trait, type=sides[-1], members=members)], end


def used(tokens, start, word):
    end = upto(tokens, word, ";")
    return list(uses(tokens[word + 1:end], tokens[start].text == "pub")), end + 1


def module(tokens, start, word):
    is_here = tokens[word + 2].text == "{"
    end = group_end(tokens, word + 2) if is_here else word + 3
    within = tokens[word + 3:end - 1] if is_here else None
    return [Item("mod", tokens[word + 1].text, tokens[start].text == "pub", tokens=within)], end


READERS = {
    "fn": function, "struct": declared, "enum": declared, "trait": declared, "const": valued, "static": valued,
    "type": valued, "ghost": ghost, "impl": impl, "use": used, "mod": module,
}
