"""Files of chains: how they are written, and what can be wrong with one."""
from tests.rules.chain_files import MOST_CHAINS, MOST_TICKS
from tests.support.systems import quoted


def row_of(name, tasks, reaction, age, held):
    both = (("reaction", reaction), ("age", age), ("held", held))
    limits = "".join(f", {key} = {ticks}" for key, ticks in both if ticks is not None)
    return f'  {{ name = "{name}", tasks = {quoted(tasks)}{limits} }},'


def text_of(chains):
    """A file of chains, each a name, its tasks and its deadlines of reaction, age and held."""
    return "\n".join(["format = 1", "chain = [", *(row_of(*it) for it in chains), "]"]) + "\n"


def damaged(draw, chains):
    """The text of a file of chains with a fault or two, or with none."""
    chains = [list(it) for it in chains]
    it, other = draw.choice(chains), draw.choice(chains)
    text = None
    for _ in range(draw.choice((1, 1, 2))):
        kind = draw.randrange(12)
        if kind == 0:
            it[2 + draw.randrange(3)] = draw.choice((0, -1, MOST_TICKS, MOST_TICKS + 1, 1 << 62))
        elif kind == 1:
            it[0] = draw.choice(("", "a b", "x" * 64, "x" * 65, "A-z_0.9", "ä"))
        elif kind == 2:
            it[0] = other[0]
        elif kind == 3:
            it[1] = [*it[1], draw.choice(("nobody", "", "t99"))]
        elif kind == 4:
            it[1] = draw.choice(([], list(it[1]) * 40, (list(it[1]) * 32)[:32]))
        elif kind == 5:
            count = draw.choice((MOST_CHAINS, MOST_CHAINS - len(chains)))
            chains += [[f"more{k}", list(it[1]), None, None, None] for k in range(count)]
        else:
            text = edited(draw, text or text_of(chains), kind)
    return text or text_of(chains)


# what stands in a good file, and what may stand there in place of it, once
EDITS = {
    6: ("format = 1", ("format = 2", "format = 0", 'format = "1"', "", "form = 1", "format = 1.0")),
    7: ("chain = [", ("chains = [", "chain = 3 #", "chain = [ 7,", "other = 1\nchain = [")),
    8: ("name = ", ("nam = ", "name = 3, x = ", "deadline = 4, name = ")),
    9: ("tasks = [", ("tasks = [1, ", "task = [", "reaction = true, tasks = [", "age = 2.5, tasks = [")),
}


def edited(draw, text, kind):
    """A text with something changed that no list of chains says."""
    if kind in EDITS:
        old, several = EDITS[kind]
        return text.replace(old, draw.choice(several), 1)
    place = draw.randrange(len(text))
    return text[:place] + draw.choice(("", "]", "}", '"', ",")) + text[place + 1 :]
