"""How the items of the sources are printed: code and prose within the width, and links to files."""
import re
import textwrap

from sources import CLOSING, OPENING

WIDTH = 100


def prose(words):
    """Paragraphs, each begun by a blank line or a list point, within the width and with a blank line below each."""
    paragraphs = [[]]
    for line in words:
        if not line or line.startswith("- "):
            paragraphs.append([])
        paragraphs[-1] += [line] if line else []
    return [line for lines in paragraphs if lines for line in wrapped(" ".join(lines)) + [""]]


def wrapped(text, mark=""):
    """One paragraph within the width. Neither code nor a short link is broken."""
    whole = re.sub(r"`[^`]*`|\[level \d\]", lambda found: found[0].replace(" ", "\0"), text)
    lines = textwrap.wrap(whole, WIDTH, initial_indent=mark, subsequent_indent=mark, break_long_words=False, break_on_hyphens=False)
    return [line.replace("\0", " ") for line in lines]


def folded(line, least=36):
    """A line of code within the width, broken at the outermost operator that serves, else at a space, and not before this column."""
    indent, pieces = len(line) - len(line.lstrip()), []
    if line[indent:indent + 2] in ("//", "--"):
        mark = line[:line.index(" ", indent) + 1] if " " in line[indent:] else line
        return textwrap.wrap(line, WIDTH, subsequent_indent=mark)
    while len(line) > WIDTH:
        depth, best = 0, (99, 0)
        for at in range(WIDTH):
            depth += (line[at] in OPENING) - (line[at] in CLOSING)
            if line[at] == " " and at > indent + least:
                word = line[at + 1:].split(" ")[0]
                inner = word in ("≡", "then", "else", "&&", "||") or line[at - 1] == ";" or line[at - 1] == "=" and depth == 0
                rank = 0 if word in ("→", "×", "⊎", "↔", "->") else 1 if inner else 2
                best = min(best, (4 * depth + rank, -at))
        if best[1] == 0:
            break
        pieces.append(line[:-best[1]])
        line = " " * (indent + 4) + line[1 - best[1]:]
    return pieces + [line]


def code(item):
    """The text of an item within the width."""
    return [piece for line in item.text for piece in folded(line)]


def size(items):
    """How many lines items have, with their comments."""
    return sum(len(code(item)) + len(wrapped(" ".join(item.comment), comment_mark(item))) for item in items)


def comment_mark(item):
    return "-- " if item.path.suffix == ".antt" else "/// "


def slug(text):
    """The anchor that a heading gets."""
    return re.sub(r"[^\w -]", "", text.lower()).replace(" ", "-")


def first_sentence(comment):
    return re.split(r"(?<=[.]) (?=[A-Z`])", " ".join(comment) + " ")[0].rstrip(". ")


# ---- in few lines

def short(item):
    """The text of an item in few lines: equal equations share one, a variant of an enum has one, and so has a field with its comment."""
    if item.kind == "definition":
        return packed(together(item))
    text = comments_beside(one_line_variants("\n".join(item.text)))
    return [piece for line in text.split("\n") for piece in folded(line)]


def packed(lines):
    """Code in few lines: a line and what goes on below it are folded as one, if that takes fewer."""
    made = []
    for group in groups(lines):
        given = [piece for line in group for piece in folded(line)]
        made += min([given] + [folded_as_one(group, least) for least in (36, 48)], key=len)
    return made


def groups(lines):
    """Lines, each with what goes on below it. Clauses, comments, fields and constructors begin a group of their own."""
    made, has_parts = [], False
    for line in lines:
        words, above = line.lstrip(), made[-1][0] if made else ""
        depth, is_part = len(line) - len(words), re.match(r"ensures\b|requires\b|//|--", words) or has_parts and re.match(r"  \S", line)
        if made and words and not is_part and (depth > len(above) - len(above.lstrip()) or words[0] in CLOSING):
            made[-1].append(line)
        else:
            made.append([line])
        has_parts = has_parts or words.endswith(" where")
    return made


def folded_as_one(group, least):
    """A line and what goes on below it, folded as one line. The head of an equation keeps its line if not all fits there."""
    line = re.sub(r"(?<=[(\[]) |,? (?=[)\]])", "", group[0] + "".join(" " + piece.strip() for piece in group[1:]))
    if len(line) <= WIDTH or len(group) == 1 or not group[0].endswith(" ="):
        return folded(line, least)
    first, *pieces = folded("    " + " ".join(piece.strip() for piece in group[1:]), least)
    return [group[0], first] + [piece[4:] if re.match(r"[→×⊎≡]", piece.lstrip()) else piece for piece in pieces]


def together(item):
    """A definition. Equations with equal right sides are one line, below the others, if no pattern of those that they leave meets theirs."""
    head, *equations = re.split(r"\n(?=\S)", "\n".join(item.text))
    sides = [right_side(equation) for equation in equations]
    count = 0
    while count < len(sides) - 1 and sides[-1 - count] == sides[-1]:
        count += 1
    if count > 1 and sides[-1] and (sides.count(sides[-1]) == count or sides.count(sides[-1]) == len(sides)):
        equations[-count:] = [f"{item.name} .. = {sides[-1]}  -- the other {count} cases"]
        return "\n".join([head] + equations).split("\n")
    for side in sorted(set(sides), key=lambda side: (-sides.count(side), sides.index(side))):
        own = [i for i, given in enumerate(sides) if given == side]
        rest = [i for i in range(len(sides)) if i not in own]
        closed = side and not any(set(re.findall(r"\w+", side)) & set(re.findall(r"\w+", equations[i].split(" =")[0])) for i in own)
        if len(own) > 1 and rest and closed and all(are_apart(equations[i], equations[j]) for i in own for j in rest if i < j):
            last = f"{item.name} .. = {side}  -- the other {len(own)} cases"
            return "\n".join([head] + [equations[i] for i in rest] + [last]).split("\n")
    return "\n".join([head] + equations).split("\n")


def are_apart(one, other):
    """Whether two equations have patterns with different constructors in one place."""
    return any(a and b and a != b for a, b in zip(constructors(one), constructors(other)))


def constructors(equation):
    """The constructor that each pattern of an equation begins with; nothing if that is a variable. Implicit patterns are left out."""
    left, found = re.sub(r"\{[^{}]*\} ", "", equation).split(" =")[0], []
    for pattern in re.findall(r"\((?:[^()]|\([^()]*\))*\)|\S+", left)[1:]:
        word = "∷" if " ∷ " in pattern else pattern.strip("()").split(" ")[0]
        found.append(word if re.match(r"(\w+\.)?[A-Z]|\[\]|∷|(zero|suc|true|false)$", word) else None)
    return found


def right_side(equation):
    """What an equation gives, on one line."""
    depth = 0
    for at, sign in enumerate(equation):
        depth += (sign in OPENING) - (sign in CLOSING)
        if depth == 0 and equation[at:at + 2] in ("= ", "=\n") and equation[at - 1] == " ":
            return " ".join(equation[at + 1:].split())
    return ""


def one_line_variants(text):
    """A type, of which each variant is one line if its fields have no comments and the width allows it."""
    def joined(found):
        line = f"{found[1]} {{ {' '.join(found[2].split()).rstrip(',')} }},"
        return line if len(line) <= WIDTH else found[0]
    return re.sub(r"^( +\w+) \{\n((?: +\w+: [^\n/]*,\n)+) +\},$", joined, text, flags=re.M)


def comments_beside(text):
    """A type, of which a field or a variant has its comment beside it, if that is one line and the width allows it."""
    made = []
    for line in text.split("\n"):
        field = re.match(r"( +)[^ /].*,$", line)
        comment = made and re.match(r" +/// (.*)", made[-1])
        if field and comment and not re.match(r" +///", (made[-2:-1] or [""])[0]) and len(f"{line}  // {comment[1]}") <= WIDTH:
            made[-1:] = [f"{line}  // {comment[1]}"]
        else:
            made.append(line)
    return "\n".join(made)
